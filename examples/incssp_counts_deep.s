# The most entries that one INCSSPQ drops are 255. With 255 calls open it leaves the stack empty. A count of 256 is 0 in
# its low byte, so the 256 calls that are opened then stay.
_start: mov ebx, 255
open:   call deeper
        ud2
deeper: dec ebx
        jne open
        mov eax, 255
        incsspq rax
        mov ebx, 256
again:  call down
        ud2
down:   dec ebx
        jne again
        mov eax, 256
        incsspq rax
        mov edi, 0
        mov eax, 231            ; exit_group
        syscall
