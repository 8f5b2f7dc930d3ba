# A process that would exit with 7, and gets signal 10 before its first instruction. It has no handler.
_start: mov edi, 7
        mov eax, 60
        syscall
