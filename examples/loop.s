# Adds the numbers 5 to 1 in a loop, and exits with the sum, 15.
_start:
    xor eax, eax
    mov ecx, 5
again:
    add eax, ecx
    dec ecx
    jne again
    mov edi, eax
    mov eax, 60
    syscall
