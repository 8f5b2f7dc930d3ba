# SAVEPREVSSP on an empty shadow stack. It reads the word at SSP before it looks at the carry, and no page is there: the
# fault is #PF, and not the #GP that a carry gives.
_start: stc
        saveprevssp
