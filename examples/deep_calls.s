# A call of itself, until the shadow stack is full.
_start: call _start
