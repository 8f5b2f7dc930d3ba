# The program that `bench 2` runs: two contexts that swap, there and back two times. A swap there and back is 61
# records, and all the rest is 26.
_start: mov edi, 0
mov esi, 4096
mov edx, 1
mov eax, 453
syscall
lea r8, [rax+4096]
lea rdi, [rip+ctx_b]
lea rsi, [rip+work]
xor edx, edx
lea rcx, [rip+stack_end]
xor r9d, r9d
call makecontext
mov ebp, 2
again: lea rdi, [rip+ctx_a]
lea rsi, [rip+ctx_b]
call swapcontext
dec rbp
jne again
xor edi, edi
mov eax, 231
syscall
work: lea rdi, [rip+ctx_b]
lea rsi, [rip+ctx_a]
call swapcontext
jmp work
.data
ctx_a: .zero 80
ctx_b: .zero 80
stack: .zero 4096
stack_end: .quad 0
