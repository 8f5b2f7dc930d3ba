# A long jump out of nested calls, with the runtime's setjmp and longjmp. setjmp returns 0; when longjmp goes
# to its record, it returns once more, with the number that longjmp was given. The return addresses of the calls
# between are dropped from the shadow stack by INCSSPQ, so that the next return finds its own.
_start:
    call search
    mov edi, eax            ; what search found: 5
    mov eax, 231            ; exit_group
    syscall

search:
    lea rdi, [rip+found]
    call setjmp
    test eax, eax
    jne done
    mov ebx, 3              ; three calls deep
    call descend
    ud2                     ; never: no descend returns
done:
    rdsspq rdx              ; SSP as behind the call of setjmp
    ret                     ; to _start, by the entry that is the newest again

descend:
    dec rbx
    je bottom
    call descend
    ud2
bottom:
    lea rdi, [rip+found]
    mov esi, 5
    call longjmp

.data
found:  .zero 72            ; a record of setjmp: nine words
