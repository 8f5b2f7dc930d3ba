# A process that exits with 7.
_start: mov edi, 7          ; the exit status
        mov eax, 60         ; exit
        syscall
