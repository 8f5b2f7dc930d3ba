/* Names, values and numbers. */
#include "cosim.h"

#include <stdarg.h>
#include <stdio.h>
#include <stdlib.h>

const char *const condition_names[CONDITIONS] = {"o", "no", "b", "ae", "e", "ne", "be", "a",
                                                 "s", "ns", "p", "np", "l", "ge", "le", "g"};

/* The ends of 32 and 64 bits, signed and not, and values whose low byte or halves tell more. */
const uint64_t edges[] = {
    0,
    1,
    2,
    0x80,
    0x7fffffff,
    0x80000000,
    0xffffffff,
    0x100000000,
    0x0123456789abcdef,
    0x7fffffffffffffff,
    0x8000000000000000,
    0xffffffff7fffffff,
    0xffffffff80000000,
    0xfffffffffffffffe,
    0xffffffffffffffff,
};
const int edge_count = sizeof edges / sizeof *edges;

const int32_t immediates[] = {0, 1, -1, 2, 0x7f, -0x80, 0x80, -0x81, 0x12345678, 0x7fffffff, -0x7fffffff - 1};
const int immediate_count = sizeof immediates / sizeof *immediates;

void fail(const char *format, ...)
{
    va_list arguments;
    va_start(arguments, format);
    fputs("cosim: ", stdout);
    vprintf(format, arguments);
    putchar('\n');
    va_end(arguments);
    exit(1);
}

void *grown(void *block, size_t size)
{
    void *larger = realloc(block, size);
    if (!larger)
        fail("out of memory");
    return larger;
}

/* splitmix64 */
uint64_t random_word(uint64_t *state)
{
    uint64_t word = *state += 0x9e3779b97f4a7c15;
    word = (word ^ (word >> 30)) * 0xbf58476d1ce4e5b9;
    word = (word ^ (word >> 27)) * 0x94d049bb133111eb;
    return word ^ (word >> 31);
}

int random_below(uint64_t *state, int bound)
{
    return (int)(random_word(state) % (uint64_t)bound);
}

const char *group_name(enum group group)
{
    static const char *const names[GROUPS] = {
        [SETUP] = "setup",
        [ALU] = "add, or, adc, sbb, and, sub, xor, cmp",
        [TEST] = "test",
        [IMUL] = "imul",
        [INC_DEC] = "inc, dec",
        [NOT_NEG] = "not, neg",
        [SHIFTS] = "shl, shr, sar",
        [CMOV] = "cmovCC",
        [MOV] = "mov",
        [MOVABS] = "movabs",
        [MOVZX] = "movzx",
        [MOVSXD] = "movsxd",
        [LEA] = "lea",
        [ADDRESSING] = "stores and loads by all forms of memory",
        [XCHG] = "xchg",
        [XADD] = "lock xadd",
        [CMPXCHG] = "lock cmpxchg",
        [NOPS] = "nop, pause, endbr64",
        [CARRY] = "stc, clc",
        [PUSH] = "push",
        [POP] = "pop",
        [LEAVE] = "leave",
        [JUMPS] = "jmp, jCC",
        [CALLS] = "call, ret",
        [SPELLINGS] = "other spellings",
        [RANDOM] = "random instructions",
    };
    return names[group];
}

const char *register_name(int reg, bool wide)
{
    static const char *const wide_names[REGISTERS] = {"rax", "rcx", "rdx", "rbx", "rsp", "rbp", "rsi", "rdi",
                                                      "r8",  "r9",  "r10", "r11", "r12", "r13", "r14", "r15"};
    static const char *const narrow_names[REGISTERS] = {"eax", "ecx", "edx",  "ebx",  "esp",  "ebp",  "esi",  "edi",
                                                        "r8d", "r9d", "r10d", "r11d", "r12d", "r13d", "r14d", "r15d"};
    return wide ? wide_names[reg] : narrow_names[reg];
}

/* Writes a number as the assembler takes it, and answers where it was written. */
char *number_text(char *to, int64_t number)
{
    uint64_t size = number < 0 ? -(uint64_t)number : (uint64_t)number;
    sprintf(to, "%s0x%llx", number < 0 ? "-" : "", (unsigned long long)size);
    return to;
}
