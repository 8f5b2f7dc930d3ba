# A return to the word that a switch leaves. Both stacks have it, so the return goes there; but it
# is an address of the shadow area, which can't be executed. The first stack is lost, since nothing
# leads to it.
_start: mov edi, 0
        mov esi, 4096
        mov edx, 1
        mov eax, 453
        syscall
        mov rbx, rax
        rstorssp [rbx+4088]
        mov rax, [rbx+4088]
        push rax
        ret
