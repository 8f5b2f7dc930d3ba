# Three shadow stacks: two restores with no save between them, so that the first stack is left and
# only the way back leads to it: second, third, second, and the pointer of the first one is popped
# at the end.
_start: mov edi, 0              ; the second stack: one page at 0x20000a000
        mov esi, 4096
        mov edx, 1
        mov eax, 453
        syscall
        mov rbx, rax
        mov eax, 453            ; the third stack: one page at 0x20000c000, since a page stays absent between two
        syscall
        mov rcx, rax
        rstorssp [rbx+4088]     ; the first stack is left, and the second one has its pointer
        rstorssp [rcx+4088]     ; the second stack is left too
        saveprevssp             ; it gets a token, below the pointer of the first
        rstorssp [rbx+4080]     ; back by that token
        saveprevssp             ; the third stack has its token again
        saveprevssp             ; the pointer of the first stack is on top now: it gets a token too
        mov edi, 0
        mov eax, 231
        syscall
