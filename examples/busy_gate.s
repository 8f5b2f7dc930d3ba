# Two threads and one processor: the second thread enters the kernel while the first is in its clone, so it finds the
# supervisor stack busy, and starts its call again.
_start: mov edi, 0x10900        ; a thread with the same memory
        lea rsi, [rsp-4096]     ; its stack
        mov eax, 56             ; clone
        syscall
        mov eax, 186            ; gettid
        syscall
        mov edi, 0
        mov eax, 60             ; exit, of this thread
        syscall
