# Two contexts that take turns, with the runtime's makecontext and swapcontext. Each has a program stack and a
# shadow stack. swapcontext keeps the running context in the record at rdi and goes to the one at rsi: RSTORSSP takes
# its shadow stack by the restore token, and SAVEPREVSSP leaves a token on the stack that was left.
_start:
    mov edi, 0              ; map_shadow_stack: at any address,
    mov esi, 4096           ; one page,
    mov edx, 1              ; with a restore token in its last word
    mov eax, 453
    syscall
    lea rdi, [rip+second]   ; a context that begins in play,
    lea rsi, [rip+play]
    mov edx, 7              ; with the argument 7,
    lea rcx, [rip+stack_end]
    lea r8, [rax+4096]      ; on that shadow stack,
    lea r9, [rip+first]     ; and goes to the first one when play returns
    call makecontext

    mov ebx, 2              ; two turns
serve:
    mov rax, [rip+ball]
    inc rax
    mov [rip+ball], rax
    lea rdi, [rip+first]
    lea rsi, [rip+second]
    call swapcontext
    dec rbx
    jne serve
    mov rdi, [rip+ball]     ; 1, 7, 1 and 7
    mov eax, 231            ; exit_group
    syscall

play:
    push rdi
    add rdi, [rip+ball]
    mov [rip+ball], rdi
    lea rdi, [rip+second]
    lea rsi, [rip+first]
    call swapcontext
    pop rdi
    add rdi, [rip+ball]
    mov [rip+ball], rdi
    ret                     ; into the runtime, which goes to the first context

.data
first:  .zero 72            ; the records, of nine words each
second: .zero 72
ball:   .quad 0
stack:  .zero 4096
stack_end:
