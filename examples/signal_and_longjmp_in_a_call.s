# A handler that leaves by longjmp, and a function that returns after it. One INCSSPQ drops the call of longjmp, the
# restorer's entry and the frame; SSP is then as behind setjmp, with the call of `watch` as the newest entry, and its `ret`
# finds it. The signal comes with 40 records (`run --signals 0:40:10`).
_start:
    mov edi, 10             ; rt_sigaction: signal 10
    lea rsi, [rip+action]
    xor edx, edx
    mov r10d, 8
    mov eax, 13
    syscall
    call watch
    mov edi, eax            ; 6, from the handler
    mov eax, 231            ; exit_group
    syscall

watch:
    lea rdi, [rip+before]
    call setjmp
    test eax, eax
    jne back
wait:
    pause
    jmp wait
back:
    rdsspq rdx              ; SSP, one entry below the start
    ret

handler:
    lea rdi, [rip+before]
    mov esi, 6
    call longjmp

.data
action: .quad handler, 0x04000000, sig_restorer, 0
before: .zero 72            ; a record of setjmp: nine words
