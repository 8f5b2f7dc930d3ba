# The 31 births that a process can have, and then the end of each thread by itself: the process ends by exit with 0.
_start: mov edi, 0x10900        ; a thread with the same memory
        lea rsi, [rsp-4096]     ; its stack, which none of them uses
again:  mov eax, 56             ; clone
        syscall
        test rax, rax
        je end                  ; the child
        jns again
end:    mov eax, 60             ; exit, of this thread
        syscall
