# Two threads that switch to the same shadow stack, each after a loop of 200 rounds: where they are beside each other, as
# under `smp`, either of them may be first.
_start: mov edi, 0
        mov esi, 4096
        mov edx, 1              ; with a restore token
        mov eax, 453            ; map_shadow_stack
        syscall
        mov rbx, rax
        mov edi, 0x10900        ; a thread with the same memory
        lea rsi, [rsp-4096]     ; its stack
        mov eax, 56             ; clone
        syscall
        mov ebp, 200            ; both come here
l:      dec rbp
        jne l
        rstorssp [rbx+4088]
s:      jmp short s
