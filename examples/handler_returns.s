# A handler for signal 10. The signal comes once six records are made: before the instruction at `here`.
_start: mov edi, 10             ; the signal
        lea rsi, [rip+action]
        xor edx, edx            ; the old action isn't wanted
        mov r10d, 8             ; the size of a mask
        mov eax, 13             ; rt_sigaction
        syscall
here:   nop                     ; the delivery stands in place of this, and comes before it
        mov edi, 3
        mov eax, 231            ; exit_group
        syscall
handler:
        ret                     ; to the restorer
restorer:
        mov eax, 15             ; rt_sigreturn, back to `here`
        syscall
.data
action: .quad handler, 0x04000000, restorer, 0
