# A signal whose handler doesn't return: it leaves by longjmp. Signal 10 is posted when the thread has 40 records
# (`run --signals 0:40:10`). Its delivery pushes two entries on the shadow stack, the frame and the restorer's address,
# and the call of longjmp a third one. longjmp drops all three, and rt_sigreturn is never called.
_start:
    mov edi, 10             ; rt_sigaction: signal 10,
    lea rsi, [rip+action]   ; its action,
    xor edx, edx            ; no place for the old one,
    mov r10d, 8             ; and 8 bytes of a set of signals
    mov eax, 13
    syscall
    lea rdi, [rip+before]
    call setjmp
    test eax, eax
    jne back
wait:
    pause
    jmp wait
back:
    rdsspq rdx              ; SSP as behind the call of setjmp
    mov edi, eax            ; 3
    mov eax, 231            ; exit_group
    syscall

handler:
    lea rdi, [rip+before]
    mov esi, 3
    call longjmp

.data
action: .quad handler, 0x04000000, sig_restorer, 0   ; handler, SA_RESTORER, restorer, mask
before: .zero 72            ; a record of setjmp: nine words
