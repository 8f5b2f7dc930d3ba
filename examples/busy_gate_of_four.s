# The threads of busy_gate with four processors in place of one: each has a supervisor stack of its own, and nobody
# finds it busy.
_start: mov edi, 0x10900        ; a thread with the same memory
        lea rsi, [rsp-4096]     ; its stack
        mov eax, 56             ; clone
        syscall
        mov eax, 186            ; gettid
        syscall
        mov edi, 0
        mov eax, 60             ; exit, of this thread
        syscall
