# A shadow stack of 8 bytes has a whole page, and the token in its first word. The words above the token belong to nobody,
# and once the thread is on that stack they are shown as 511 blanks.
_start: mov edi, 0
        mov esi, 8              ; the size
        mov edx, 1              ; with a restore token
        mov eax, 453            ; map_shadow_stack
        syscall
        mov rbx, rax
        mov rax, [rbx]          ; the token: the address behind it, and 1
        rstorssp [rbx]
        saveprevssp
        mov edi, 0
        mov eax, 231            ; exit_group
        syscall
