# A switch to a second shadow stack and back. Each switch is a pair: RSTORSSP goes to the other
# stack by its restore token, and SAVEPREVSSP leaves a restore token on the stack that it came from.
_start: mov edi, 0              ; map_shadow_stack: at any address,
        mov esi, 4096           ; one page,
        mov edx, 1              ; with a restore token in its last word
        mov eax, 453
        syscall
        mov rbx, rax            ; its start
        rstorssp [rbx+4088]     ; there: SSP is the token's place now
        mov rax, [rbx+4088]     ; what stands there in place of the token: the SSP before, and 3
        saveprevssp             ; pops it, and leaves a token on the first stack
        mov rcx, 0x200008ff8
        mov rax, [rcx]          ; that token: the address above it, and 1
        rstorssp [rcx]          ; back
        saveprevssp             ; the second stack has its token again
        rdsspq rdx              ; SSP, as at the start
        mov edi, 0
        mov eax, 231            ; exit_group
        syscall
