/* Two coroutines: one counts, the other adds up what it is given, and each has a program stack and a shadow stack of its
 * own. The switch is some thirty instructions of assembler, as a runtime for coroutines would have them. Where the
 * processor or the system has no shadow stacks, RDSSPQ leaves its register as it is, and the switch leaves their part
 * out: so one program runs with and without. Exit status 55. */
#include "start.h"

/* A coroutine that doesn't run: RSP, SSP, and where it goes on. The switch knows the places of all three. */
struct context {
    word pointer, shadow, target;
};

/* Keeps the running coroutine in `from`, and goes on with `to`. */
void switch_to(struct context *from, struct context *to);
word shadow_pointer(void);

/* RSTORSSP takes the token right below the other stack's SSP, and leaves there where this stack was; SAVEPREVSSP turns
 * that into a token of this stack, right below its SSP. So `shadow` is all that has to be kept. */
__asm__(".globl switch_to, shadow_pointer\n"
        "shadow_pointer:\n"
        "    endbr64\n"
        "    xor %eax, %eax\n"
        "    rdsspq %rax\n"
        "    ret\n"
        "switch_to:\n"
        "    endbr64\n"
        "    push %rbx\n"
        "    push %rbp\n"
        "    push %r12\n"
        "    push %r13\n"
        "    push %r14\n"
        "    push %r15\n"
        "    mov %rsp, (%rdi)\n"
        "    lea go_on(%rip), %rax\n"
        "    mov %rax, 16(%rdi)\n"
        "    xor %eax, %eax\n"
        "    rdsspq %rax\n"
        "    test %rax, %rax\n"
        "    je no_shadow_stack\n"
        "    mov %rax, 8(%rdi)\n"
        "    mov 8(%rsi), %rcx\n"
        "    rstorssp -8(%rcx)\n"
        "    saveprevssp\n"
        "no_shadow_stack:\n"
        "    mov (%rsi), %rsp\n"
        "    jmp *16(%rsi)\n"
        "go_on:\n"
        "    endbr64\n"
        "    pop %r15\n"
        "    pop %r14\n"
        "    pop %r13\n"
        "    pop %r12\n"
        "    pop %rbp\n"
        "    pop %rbx\n"
        "    ret\n");

static struct context adder, counter;
static word stack[512] __attribute__((aligned(16)));
static word given;

/* A coroutine that begins at `target` when it is first switched to. */
static void make(struct context *made, word *end, void (*target)(void))
{
    enum { SHADOW_SIZE = 4096, SET_TOKEN = 1 };
    made->pointer = (word)end - 8; /* as if a call had pushed an address */
    made->target = (word)target;
    if (shadow_pointer())
        made->shadow = kernel(MAP_SHADOW_STACK, 0, SHADOW_SIZE, SET_TOKEN) + SHADOW_SIZE;
}

__attribute__((noinline)) static void give(word value)
{
    given = value;
    switch_to(&counter, &adder);
}

/* It is reached by a jump, and nobody switches to it once it has given 0. So it never returns. */
static void count(void)
{
    for (word value = 10; value; value = value - 1)
        give(value);
    give(0);
    __builtin_trap();
}

word program(void)
{
    word total = 0;
    make(&counter, &stack[512], count);
    do {
        switch_to(&adder, &counter);
        total = total + given;
    } while (given);
    return total;
}
