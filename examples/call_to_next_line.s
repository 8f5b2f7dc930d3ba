# A call to the next line, by which code finds where it stands. Its distance is 0, and such a call leaves nothing on the
# shadow stack, so no return belongs to it: the `ret` finds the call of f there, and faults.
_start: call f
        ud2
f:      call rel 0
        ret
