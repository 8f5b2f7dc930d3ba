; A machine with one user program at a time: 64-bit mode, CPL 3, user shadow stacks, a trap after each instruction.
;
; nasm -f bin; machine.py lays the disk out: this code, the page tables at TABLES, the cases from sector CASES on.
; It gives TABLES, CASES, SECTORS (of the cases), LOW_ENTRY (the page entry of address 0), USER, TEXT, DUMP and END (places
; of the user's pages in memory), TOKEN (of the supervisor's shadow stack) and TOKEN_PLACE.
; A case is in words of 8 bytes: the length of the text in words, the text, the number of planted words, each as
; place and value, the most instructions, SSP, rax to r15 in encoding order, RIP, RFLAGS. The word -1 ends the list.
;
; Port e9 gets one line a trap or fault: vector, error code, CR2, RIP, RFLAGS, SSP, and `register=value` for each
; register that changed. At a case's end follows `w place value` for each word of DUMP to END that isn't 0, and `.`, and at
; the list's end `end`.

KERNEL equ 0xffffff8000000000   ; all memory, from 0 on, for the supervisor
LOADED equ KERNEL + 0x200000    ; the cases
TASK equ 0x6000                 ; the task-state segment
STACK equ KERNEL + 0x7a00
U_CET equ 0x6a0
S_CET equ 0x6a2
PL0_SSP equ 0x6a4
PL3_SSP equ 0x6a7

org 0x7c00
default rel
bits 16
start:  cli
        xor ax, ax
        mov ds, ax
        mov ss, ax
        mov sp, 0x7a00
        mov si, packet
        mov ah, 0x42            ; read by block number; dl is the disk
        int 0x13
        jc $
        in al, 0x92             ; line A20
        or al, 2
        out 0x92, al
        lgdt [low_table]
        mov eax, TABLES
        mov cr3, eax
        mov eax, 0x20           ; PAE
        mov cr4, eax
        mov ecx, 0xc0000080
        mov eax, 0x900          ; long mode, execute-disable
        xor edx, edx
        wrmsr
        mov eax, 0x80050001     ; paging, alignment check, write protect (which CET asks for), protection
        mov cr0, eax
        jmp 8:long_mode

align 4
packet: db 16, 0
        dw 127, 0x7e00, 0
        dq 1
low_table:
        dw segments_end - segments - 1
        dd segments
times 510-($-$$) db 0
        dw 0xaa55

bits 64
long_mode:
        mov rax, KERNEL + high
        jmp rax
high:   mov ax, 0x10
        mov ss, ax
        mov ds, ax
        mov es, ax
        mov rsp, STACK
        lgdt [high_table]
        lidt [interrupts_table]
        mov rax, KERNEL + TASK
        mov [rax + 4], rsp      ; the stack of traps
        mov ax, 0x28
        ltr ax
        mov rax, KERNEL + LOW_ENTRY
        mov qword [rax], 0      ; no page at address 0 from here on
        mov rax, cr4
        or eax, 1 << 23         ; CET
        mov cr4, rax
        mov ecx, U_CET
        mov eax, 1              ; shadow stacks for the user, without WRSS
        xor edx, edx
        wrmsr
        mov ecx, S_CET          ; and for the supervisor, since SETSSBSY and CLRSSBSY ask for them first
        wrmsr
        mov ecx, PL0_SSP
        mov rax, TOKEN
        mov rdx, rax
        shr rdx, 32
        wrmsr
        mov rdx, KERNEL + TOKEN_PLACE
        mov [rdx], rax
        setssbsy                ; IRET frees the token, and each trap takes it

        mov rdi, LOADED         ; the cases, from the disk, sector by sector
        mov ebx, CASES
        mov ebp, SECTORS
sector: mov edx, 0x1f2
        mov al, 1
        out dx, al
        mov eax, ebx
        inc edx
        out dx, al
        shr eax, 8
        inc edx
        out dx, al
        shr eax, 8
        inc edx
        out dx, al
        mov al, 0xe0
        inc edx
        out dx, al
        mov al, 0x20
        inc edx
        out dx, al
ready:  in al, dx
        test al, 8
        jz ready
        mov edx, 0x1f0
        mov ecx, 256
        rep insw
        inc ebx
        dec ebp
        jnz sector
        mov rax, LOADED
        mov [next], rax

run_case:
        mov rsp, STACK
        mov rsi, [next]
        lodsq
        cmp rax, -1
        je finish
        mov rdx, rax
        mov rdi, KERNEL + USER
        mov ecx, (END - USER) / 8
        xor eax, eax
        rep stosq
        mov rdi, KERNEL + TEXT
        mov rcx, rdx
        rep movsq
        lodsq
        mov rcx, rax
plant:  lodsq
        mov rdi, KERNEL
        add rdi, rax
        movsq
        loop plant
        lodsq
        mov [left], rax
        lodsq
        mov rdx, rax
        shr rdx, 32
        mov ecx, PL3_SSP
        wrmsr
        lea rdi, [old]
        mov ecx, 18
        rep movsq
        mov [next], rsi
        mov rax, cr3
        mov cr3, rax            ; the planted page entries
        xor eax, eax
        mov cr2, rax
        lea rsi, [old]
        push 0x1b
        push qword [rsi + 4*8]
        push qword [rsi + 17*8]
        push 0x23
        push qword [rsi + 16*8]
        sub rsp, 18*8
        mov rdi, rsp
        mov ecx, 16
        rep movsq
        jmp resume

trap:   push r15                ; the registers in encoding order, from rsp on; then vector, code, RIP, CS, RFLAGS, RSP
        push r14
        push r13
        push r12
        push r11
        push r10
        push r9
        push r8
        push rdi
        push rsi
        push rbp
        push qword [rsp + 16*8]
        push rbx
        push rdx
        push rcx
        push rax
        mov rax, [rsp + 16*8]   ; vector
        call show
        mov rax, [rsp + 17*8]   ; code
        call show_next
        mov rax, cr2
        call show_next
        mov rax, [rsp + 18*8]   ; RIP
        call show_next
        mov rax, [rsp + 20*8]   ; RFLAGS
        call show_next
        mov ecx, PL3_SSP
        rdmsr
        shl rdx, 32
        or rax, rdx
        call show_next
        xor ebx, ebx
        lea rsi, [old]
changes:
        mov rbp, [rsp + rbx*8]
        cmp rbp, [rsi + rbx*8]
        je same
        mov [rsi + rbx*8], rbp
        mov eax, ebx
        call show_next
        mov al, '='
        out 0xe9, al
        mov rax, rbp
        call show
same:   inc ebx
        cmp ebx, 16
        jne changes
        mov al, 10
        out 0xe9, al
        cmp qword [rsp + 16*8], 1
        jne case_end
        dec qword [left]
        jz case_end
resume: pop rax
        pop rcx
        pop rdx
        pop rbx
        add rsp, 8
        pop rbp
        pop rsi
        pop rdi
        pop r8
        pop r9
        pop r10
        pop r11
        pop r12
        pop r13
        pop r14
        pop r15
        add rsp, 16
        iretq

case_end:
        mov rdi, KERNEL + DUMP
words:  mov rcx, KERNEL + END
        sub rcx, rdi
        shr rcx, 3
        jz all_shown
        xor eax, eax
        repe scasq
        je all_shown
        mov al, 'w'
        out 0xe9, al
        lea rax, [rdi - 8]
        mov edx, eax            ; the place, without KERNEL
        mov rbp, [rax]
        mov eax, edx
        call show_next
        mov rax, rbp
        call show_next
        mov al, 10
        out 0xe9, al
        jmp words
all_shown:
        mov al, '.'
        out 0xe9, al
        mov al, 10
        out 0xe9, al
        jmp run_case

finish: lea rsi, [bye]
        mov edx, 0xe9
        mov ecx, 4
        rep outsb
        mov edx, 0x8900         ; Bochs's port for its own end
        mov ecx, 8
        rep outsb
        hlt

show_next:                      ; a blank, and rax
        push rax
        mov al, ' '
        out 0xe9, al
        pop rax
show:   mov rdx, rax            ; rax, in hexadecimal without leading zeros
        or rdx, 1
        bsr rcx, rdx
        and ecx, -4
        mov rdx, rax
digit:  mov rax, rdx
        shr rax, cl
        and eax, 15
        add al, '0'
        cmp al, '9'
        jbe shown
        add al, 'a' - '9' - 1
shown:  out 0xe9, al
        sub ecx, 4
        jns digit
        ret

%define CODED (1<<8 | 1<<10 | 1<<11 | 1<<12 | 1<<13 | 1<<14 | 1<<17 | 1<<21)
%assign vector 0
%rep 32
entry_ %+ vector:
%if (CODED >> vector) & 1 = 0
        push 0
%endif
        push vector
        jmp trap
%assign vector vector + 1
%endrep

align 8
interrupts:
%assign vector 0
%rep 32
        dw entry_ %+ vector, 8
        db 0, 0x8e
        dw 0
        dd KERNEL >> 32, 0
%assign vector vector + 1
%endrep
interrupts_table:
        dw interrupts_table - interrupts - 1
        dq KERNEL + interrupts
high_table:
        dw segments_end - segments - 1
        dq KERNEL + segments
align 8
segments:
        dq 0
        dq 0x00209a0000000000   ; 8: supervisor's code
        dq 0x0000920000000000   ; 10: supervisor's data
        dq 0x0000f20000000000   ; 18: user's data
        dq 0x0020fa0000000000   ; 20: user's code
        dw 0x67, TASK           ; 28: the task-state segment
        db 0, 0x89, 0, 0
        dd KERNEL >> 32, 0
segments_end:
bye:    db 'end', 10, 'Shutdown'
align 8
next:   dq 0
left:   dq 0
old:    times 18 dq 0
times TABLES-0x7c00-($-$$) db 0
