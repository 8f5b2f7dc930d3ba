# No exit: the bytes behind the text are 0, which is no instruction here.
_start: mov edi, 7
