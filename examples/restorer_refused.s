# rt_sigaction with restorers that are no code. A restorer's address goes to the shadow stack at each delivery, so the
# kernel takes none but one in an executable page of the image: not in data, not in a shadow stack, not 0, not behind the
# text's pages, not in the kernel. The last one is in the text's page, and taken.
_start: mov edi, 10             ; the signal
        xor edx, edx            ; the old action isn't wanted
        mov r10d, 8             ; the size of a mask
        lea rsi, [rip+in_data]
        mov eax, 13             ; rt_sigaction
        syscall
        lea rsi, [rip+in_a_shadow_stack]
        mov eax, 13
        syscall
        lea rsi, [rip+of_zero]
        mov eax, 13
        syscall
        lea rsi, [rip+behind_the_text]
        mov eax, 13
        syscall
        lea rsi, [rip+in_the_kernel]
        mov eax, 13
        syscall
        lea rsi, [rip+good]
        mov eax, 13
        syscall
        mov edi, 0
        mov eax, 231            ; exit_group
        syscall
handler:
        ret
.data
in_data: .quad handler, 0x04000000, in_data, 0
in_a_shadow_stack: .quad handler, 0x04000000, 0x20000b001, 0
of_zero: .quad handler, 0x04000000, 0, 0
behind_the_text: .quad handler, 0x04000000, 0x402000, 0
in_the_kernel: .quad handler, 0x04000000, 0xffff800000000000, 0
good:   .quad handler, 0x04000000, 0x401fff, 0
