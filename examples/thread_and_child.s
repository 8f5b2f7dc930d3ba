# A thread starts a second one on a program stack of its own. The child runs a function, which stores its thread's id, and
# exits; the first thread goes on, calls the same function for its own place, and exits.
_start: mov edi, 0x10900        ; a thread with the same memory
        lea rsi, [rip+stack_end]
        mov eax, 56             ; clone
        syscall
        test rax, rax
        je child
        lea rbx, [rip+first]
        call store_id
        mov edi, 1
        mov eax, 60             ; exit, of this thread
        syscall
child:  lea rbx, [rip+second]
        call store_id
        mov edi, 2
        mov eax, 60
        syscall
store_id:
        mov eax, 186            ; gettid
        syscall
        mov [rbx], rax
        ret
.data
first:  .quad 0
second: .quad 0
stack:  .zero 256
stack_end:
        .quad 0
