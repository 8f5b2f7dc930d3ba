# A function that asks for rt_sigreturn without a delivery: below its stack pointer stand words that it could have
# written itself. Its shadow stack has a return address on top and no frame's mark, so the process is killed.
_start: call f
        ud2
f:      lea rsp, [rsp-512]
        mov eax, 15             ; rt_sigreturn
        syscall
