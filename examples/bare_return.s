# A return with no call open: the shadow stack is empty, and the page above it is absent.
_start: ret
