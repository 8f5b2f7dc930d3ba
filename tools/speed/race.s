# Eight threads race for one lock. Each takes it 500 times by a locked exchange, adds 1 to the sum under it, and gives it
# back. With the runtime.
_start: mov ebp, 7
        lea rbx, [rip+stacks]
start:  add rbx, 4096
        lea rdi, [rip+work]
        mov rsi, 0
        mov rdx, rbx
        call thread_start
        dec ebp
        jne start
        call work
        mov edi, 0
        mov eax, 60
        syscall
work:   mov r8d, 500
        mov ecx, 1
again:  xor eax, eax
        lock cmpxchg [rip+lock], rcx
        je  got
        pause
        jmp again
got:    mov rdx, [rip+sum]
        add rdx, 1
        mov [rip+sum], rdx
        mov [rip+lock], 0
        dec r8d
        jne again
        ret
        .data
lock:   .quad 0
sum:    .quad 0
stacks: .zero 28672
