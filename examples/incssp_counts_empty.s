# INCSSPQ with the count 0 on an empty shadow stack: the look at the word at SSP faults, since no page is there.
_start: mov eax, 0
        incsspq rax
