# map_shadow_stack with more pages than are left: 1,014 pages don't fit beside the first stack. The place that they would
# have had stays taken, so one page is refused after it too. Both answers are -12, ENOMEM.
_start: mov edi, 0
        mov esi, 4153344        ; 1,014 pages
        mov edx, 1              ; with a restore token
        mov eax, 453            ; map_shadow_stack
        syscall
        mov edi, 0
        mov esi, 4096
        mov edx, 1
        mov eax, 453
        syscall
        mov edi, 0
        mov eax, 231            ; exit_group
        syscall
