# A call and its return, and an exit with 3. The shadow stack has the call's word in between.
_start: call f
        mov edi, 3
        mov eax, 60
        syscall
f:      ret
