# The kernel is asked to write a word into a shadow stack. It looks at the page as the program would, and refuses. Then
# the program tries it itself.
_start: mov edi, 0x5005         ; the status of shadow stacks
        mov rsi, 0x200001000    ; where it shall be written: a page of the shadow stack
        mov eax, 158            ; arch_prctl
        syscall
        mov [rsi], 1
