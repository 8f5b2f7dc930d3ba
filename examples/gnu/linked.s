# For GNU as and `ld -z shstk`. A function adds a word of the data to its argument, and the process exits with the sum, 12.
    .intel_syntax noprefix
    .globl _start
    .text
_start:
    mov edi, 7
    call f
    mov eax, 60
    syscall
f:
    add rdi, five[rip]
    ret
    .data
five:
    .quad 5
