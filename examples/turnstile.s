# Two threads, each with a loop of its own, that share nothing: no value of a report depends on the order of their turns,
# so every order has this report, also that in which `smp` runs them beside each other.
_start: mov edi, 0x10900        ; a thread with the same memory
        lea rsi, [rsp-4096]     ; its stack
        mov eax, 56             ; clone
        syscall
        mov ebp, 200            ; both come here
l:      dec rbp
        jne l
        mov edi, 0
        mov eax, 60             ; exit, of this thread
        syscall
