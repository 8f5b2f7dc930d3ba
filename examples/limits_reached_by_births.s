# A process has 32 threads in all its time, the first one among them. 31 births succeed, whatever has ended since, and the
# next two clones are refused with -11, EAGAIN.
_start: mov edi, 0x10900        ; a thread with the same memory
        lea rsi, [rsp-4096]     ; its stack, which none of them uses
again:  mov eax, 56             ; clone
        syscall
        test rax, rax
        je child
        jns again
        mov eax, 56
        syscall
        mov edi, 0
        mov eax, 231            ; exit_group
        syscall
child:  mov eax, 60             ; exit, of this thread
        syscall
