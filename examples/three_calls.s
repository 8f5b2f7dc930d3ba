# Three calls, each within the one before. Each leaves its return address on the shadow stack, and the process ends in
# the innermost one, so the report shows all three, the newest first.
_start: call f
        ud2
f:      call g
        ret
g:      call h
        ret
h:      mov edi, 0
        mov eax, 231            ; exit_group
        syscall
