# Writes over the return address on the program stack. The return compares it with the word on the
# shadow stack, and faults.
_start:
    call f
    ud2
f:
    mov [rsp], 0
    ret
