# A loop without an end, under `run --limit 3`: the thread stops at its third record.
s:      jmp short s
