# What map_shadow_stack answers to addresses, sizes and flags, a call each: first eight that are refused, and leave the
# next free place as it is, and then three that are made. A stack without a token (flags 0) is lost from the start.
_start: lea rbx, [rip+calls]
        mov ebp, 11
again:  mov rdi, [rbx]          ; address
        mov rsi, [rbx+8]        ; size
        mov rdx, [rbx+16]       ; flags
        mov eax, 453
        syscall
        add rbx, 24
        dec ebp
        jne again
        mov edi, 0
        mov eax, 231            ; exit_group
        syscall
.data
calls:  .quad 0, 0, 1                   ; -28, ENOSPC: no room for a token
        .quad 0, 7, 1                   ; -28 too
        .quad 0, 4095, 1                ; -22, EINVAL: the token would not be aligned
        .quad 0, 0, 0                   ; -22: no size
        .quad 0, 4096, 2                ; -22: no such flag
        .quad 4096, 4096, 1             ; -34, ERANGE: an address below 4 GiB
        .quad 0x100000000, 4096, 1      ; -17, EEXIST: at an address that is chosen
        .quad 0, -1, 1                  ; -75, EOVERFLOW: its pages pass 2^64
        .quad 0, 8, 1                   ; a page whose first word is the token
        .quad 0, 4096, 1                ; a page whose last word is the token
        .quad 0, 4095, 0                ; a page without a token
