# The factorial of 4 by recursion. The process ends with it as its status, 24.
_start:
    mov edi, 4
    call factorial
    mov edi, eax
    mov eax, 231
    syscall

factorial:
    cmp edi, 1
    ja deeper
    mov eax, 1
    ret
deeper:
    push rdi
    dec edi
    call factorial
    pop rdi
    imul eax, edi
    ret
