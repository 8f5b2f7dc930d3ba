# INCSSPQ drops entries of the shadow stack, as a jump out of several functions needs it. The low
# byte of its register counts. Three calls are open in h; it returns from the first of them.
_start: call f
        mov eax, 0
        incsspq rax             ; no call is open: also a count of 0 looks at the word at SSP, and faults
f:      call g
        ud2
g:      call h
        ud2
h:      mov eax, 256
        incsspq rax             ; the low byte is 0: nothing is dropped
        mov eax, 257
        incsspq rax             ; the low byte is 1: the call of h is dropped
        mov eax, 1
        incsspq rax             ; and that of g
        pop rcx                 ; the program stack loses the same two
        pop rcx
        ret                     ; to the line behind `call f`
