# Each instruction as it is listed.
add rax, rbx
or r8d, r15d
adc ecx, [rbx+0x8]
sbb rdx, [rbp]
and rsp, -0x10
sub eax, 0x3e8
xor r9d, r9d
cmp [r12-0x8], r13
cmp dword [rbx], 0x5
cmp [rip+0x10], -0x1
test [rsp], rdi
test dword [-0x10], 0x12345678
test esi, -0x2
inc r13d
dec r13d
not r13d
neg r13d
neg rbp
imul esi, [rdi]
mov [rax+rcx*8-0x80000000], r14
mov r10d, [r11*4]
mov rbp, rsp
mov edi, 0x7
mov [r13+r12*1], 0x7fffffff
movabs r12, 0xfedcba9876543210
movzx rbx, byte [rip-0x5]
movsxd r11, r9d
movsxd rax, [rsi+r9*2+0x7f]
shl rax, 0x3f
shr r10d, 0x2
sar rcx, cl
lea rax, [rip]
lea ecx, [0x0]
xchg rbx, rdx
xchg [r8], rdx
lock xadd [rdi], rax
lock cmpxchg [r15+r14*4+0x100], r15
cmovo rdx, rcx
cmovb rdx, rcx
cmove rdx, rcx
cmovbe rdx, rcx
cmovs rdx, rcx
cmovp rdx, rcx
cmovl rdx, rcx
cmovle rdx, rcx
push r12
push -0x80
push [rax+0x10]
pop rbp
jno rel 0x3e8
jae rel 0xbb8
jne rel 0x1388
ja rel 0x1b58
jns rel 0x2328
jnp rel 0x2af8
jge rel 0x32c8
jg rel 0x3a98
leave
call rel -0x5
call rax
notrack call [rbx]
jmp rel 0x1000
jmp [rdi+0x38]
notrack jmp r11
ret
ret 0xffff
nop
pause
endbr64
ud2
syscall
stc
clc
incsspq r8
rdsspq rax
rstorssp [rax-0x8]
saveprevssp
setssbsy
clrssbsy [rsp+rbp*2]
wrssq [rdx], rcx
wrussq [r13], r9
# The same in other forms.
add eax, 5
add eax, 0xffffffff
mov rax, 5
mov rcx, 0x200008ff8
mov rax, -1
movabs rax, -1
	mov	edi ,	7 # seven
rstorssp [rbx+4088]
push 1000
a: b:syscall
cmp dword [ rbx + rax * 4 - 5 ], -5
mov rax, [rbx--5]
mov rax, [5+rcx*1+rbx]
lea eax, [rbx+rcx]
mov rax, [rip]
test [rbx], rdx
movzx eax, byte [rbx]
movsxd rax, ebx
cmovb rcx, rdx
shl rax, cl
ret 65535
jmp rel -5
notrack  jmp [rbx]
lock xadd [rdi], rax
