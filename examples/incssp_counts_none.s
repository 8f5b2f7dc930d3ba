# INCSSPQ with the count 0 drops nothing. It looks at the newest entry all the same, which is there.
_start: call f
        ud2
f:      mov eax, 0
        incsspq rax
        mov edi, 0
        mov eax, 231            ; exit_group
        syscall
