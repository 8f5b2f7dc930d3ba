/* What each program begins and ends with: the entry, and exit_group. No C library stands behind it. */
#ifndef START_H
#define START_H

/* All numbers have 64 bits: a store of an `int` would be one of 32 bits, which the machine doesn't have. */
typedef unsigned long word;

/* What the program does; its result is the exit status. It is called, so that its return is checked as well. */
__attribute__((noinline)) word program(void);

static inline word kernel(word number, word first, word second, word third)
{
    word result;
    __asm__ volatile("syscall"
                     : "=a"(result)
                     : "a"(number), "D"(first), "S"(second), "d"(third)
                     : "rcx", "r11", "memory");
    return result;
}

/* The value, in a register: the compiler can neither work on its place in memory nor make it part of an instruction. */
static inline word in_register(word value)
{
    __asm__("" : "+r"(value));
    return value;
}

enum { EXIT_GROUP = 231, MAP_SHADOW_STACK = 453 };

__attribute__((noreturn)) static inline void leave(word status)
{
    kernel(EXIT_GROUP, status, 0, 0);
    __builtin_trap(); /* ud2 */
}

/* The entry has no return address, so it is no function of C. It aligns the stack as a call finds it. */
__asm__(".globl _start\n"
        "_start:\n"
        "    endbr64\n"
        "    xor %ebp, %ebp\n"
        "    and $-16, %rsp\n"
        "    call begin\n"
        "    ud2\n");

__attribute__((noreturn, used)) void begin(void)
{
    leave(program());
}

#endif
