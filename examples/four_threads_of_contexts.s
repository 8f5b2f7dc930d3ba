# Four threads, each with eight contexts. Thread 0 starts three more by thread_start, and then does as they do: it makes
# eight contexts, each on a shadow stack of one page, goes through all of them ten times, sends itself a signal whose
# handler returns, stores a word when it is done, and exits with 0. No thread waits for another, so the process ends by
# exit with 0 in whatever order they have their turns.
_start:
    mov edi, 10                 ; rt_sigaction: the handler of signal 10, for all threads
    lea rsi, [rip+action]
    xor edx, edx
    mov r10d, 8
    mov eax, 13
    syscall
    lea rbx, [rip+blocks]       ; a block of memory for each thread, the first one for this
    mov ebp, 3
start:
    add rbx, 2704
    lea rdi, [rip+work]
    mov rsi, rbx                ; its argument: the thread's block
    lea rdx, [rbx+2704]         ; its program stack ends where its block ends
    call thread_start
    dec ebp
    jne start
    lea rdi, [rip+blocks]
    call work
    mov edi, 0
    mov eax, 60                 ; exit, of this thread
    syscall

# What a thread does with the block at rdi: a word for "done", the records of eight contexts and of the thread itself, a
# program stack for each context, and the thread's own.
work:
    push rbx
    push rbp
    mov rbx, rdi
    mov ebp, 0                  ; the number of the context
make:
    mov edi, 0                  ; map_shadow_stack: at any address,
    mov esi, 4096               ; one page,
    mov edx, 1                  ; with a restore token in its last word
    mov eax, 453
    syscall
    lea r8, [rax+4096]          ; its end
    lea rax, [rbp+rbp*8]
    lea rdi, [rbx+rax*8+8]      ; the record, of 72 bytes
    lea rsi, [rip+pass]
    mov rdx, rdi                ; its argument: its own record
    mov rcx, rbp
    shl rcx, 7
    lea rcx, [rbx+rcx+784]      ; the end of its program stack, of 128 bytes
    xor r9d, r9d                ; no link
    call makecontext
    inc ebp
    cmp ebp, 8
    jne make

    mov ebp, 10                 ; ten times:
round:
    lea rdi, [rbx+584]          ; from the thread's own record
    lea rsi, [rbx+8]            ; to the first context, and from each to the next
    call swapcontext
    dec ebp
    jne round

    mov eax, 186                ; gettid
    syscall
    mov esi, eax
    mov edi, 1000
    mov edx, 10
    mov eax, 234                ; tgkill, to itself
    syscall
    mov [rbx], 1                ; done
    pop rbp
    pop rbx
    ret

# A context: from its record to the one behind it, over and over. The last one's is that of the thread.
pass:
    mov rbx, rdi
on:
    mov rdi, rbx
    lea rsi, [rbx+72]
    call swapcontext
    jmp on

handler:
    ret

.data
action: .quad handler, 0x04000000, sig_restorer, 0
blocks: .zero 10816
