# INCSSPQ with a count of 2 where one call is open: it looks at the second entry, which would stand in the page above the
# stack. That page is absent, and nothing is dropped.
_start: call f
        ud2
f:      mov eax, 2
        incsspq rax
