# Labels as targets, displacements and immediates. The bytes of the first ten are those of NASM 2.16.
a: jmp a
jmp short c
lea rax, [rip+d]
cmp dword [rip+d], d
mov rcx, c
jne c
push d
mov rdx, [rbx+d]
jb short a
c: call a
# Words of the language that are names of labels.
call f_1
mov rax, RBX
movabs rax, short
push [rel]
jmp short
jne short nop
f_1: RBX: short:rel: nop: ret
.data
d: .quad d
