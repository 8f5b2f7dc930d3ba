# Two threads that switch to the same shadow stack: one gets it, and for the other the token is gone.
_start: mov edi, 0
        mov esi, 4096
        mov edx, 1              ; with a restore token
        mov eax, 453            ; map_shadow_stack
        syscall
        mov rbx, rax
        mov edi, 0x10900        ; a thread with the same memory
        lea rsi, [rsp-4096]     ; its stack
        mov eax, 56             ; clone
        syscall
        rstorssp [rbx+4088]     ; both come here
s:      jmp short s
