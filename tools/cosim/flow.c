/* Cases of the stack, of jumps and of calls. */
#include "cosim.h"

#include <stdio.h>

enum { PLACE = 0x7fff8000 }; /* where the program's stack is in a case */

static void pushes_of(struct suite *suite, int reg)
{
    struct program *program = reserve(suite, 8 * (size_t)edge_count);
    for (int edge = 0; edge < edge_count; edge++) {
        int other = (reg + edge) % REGISTERS;
        set(program, reg, edges[edge]);
        set(program, RSP, (uint64_t)(PLACE - 8 * edge));
        put(program, noted(PUSH, VALUE_PUSHED), "push %s", register_name(reg, true));
        show(program, RSP);
        put(program, writes(MOV, RCX), "mov rcx, [rsp]");
        put(program, writes(POP, other), "pop %s", register_name(other, true));
        show(program, RSP);
    }
}

static void pushes_of_numbers(struct suite *suite)
{
    char number[24];
    struct program *program = reserve(suite, 5 * (size_t)immediate_count);
    for (int place = 0; place < immediate_count; place++) {
        int reg = place + R8 < REGISTERS ? place + R8 : place;
        set(program, RSP, (uint64_t)(PLACE + 8 * place));
        put(program, noted(PUSH, VALUE_PUSHED), "push %s", number_text(number, immediates[place]));
        show(program, RSP);
        put(program, writes(POP, reg), "pop %s", register_name(reg, true));
        show(program, RSP);
    }
}

/* The memory is read before RSP goes down. */
static void pushes_of_memory(struct suite *suite)
{
    static const char *const operands[] = {"[rsp]", "[rsp+8]", "[rsp-8]", "[rbx+rcx*8-16]", "[r13]", "[r12+8]"};
    char text[64];
    struct program *program = reserve(suite, 4 * (size_t)edge_count + 70);
    set(program, RSP, PLACE);
    for (int edge = 0; edge < edge_count; edge++) {
        put(program, noted(PUSH, VALUE_PUSHED), "push %s", memory_text(text, at_slot(edge)));
        show(program, RSP);
    }
    set(program, RBX, SCRATCH);
    set(program, RCX, 5);
    set(program, R13, SCRATCH + 8);
    set(program, R12, SCRATCH + 16);
    for (int operand = 0; operand < 6; operand++) {
        put(program, noted(PUSH, VALUE_PUSHED), "push %s", operands[operand]);
        show(program, RSP);
    }
    for (int edge = 0; edge < edge_count + 6; edge++) {
        put(program, writes(POP, RDX), "pop rdx");
        show(program, RSP);
    }
}

static void leaves(struct suite *suite)
{
    struct program *program = reserve(suite, 6 * (size_t)edge_count);
    for (int edge = 0; edge < edge_count; edge++) {
        set(program, RSP, (uint64_t)(PLACE + 16 * edge));
        set(program, RBP, edges[edge]);
        put(program, noted(PUSH, VALUE_PUSHED), "push rbp");
        put(program, writes(MOV, RBP), "mov rbp, rsp");
        set(program, RSP, edges[edge]);
        put(program, writes(LEAVE, RBP), "leave");
        show(program, RSP);
    }
}

static void stack_under_flags(struct suite *suite)
{
    char text[64];
    struct program *program = reserve(suite, 14 * SETTINGS);
    memory_text(text, at_slot(3));
    for (int setting = 0; setting < SETTINGS; setting++) {
        set(program, RSP, PLACE);
        set(program, RBP, PLACE - 8);
        set_flags(program, setting);
        put(program, noted(PUSH, VALUE_PUSHED), "push rbp");
        put(program, noted(PUSH, VALUE_PUSHED), "push -5");
        put(program, noted(PUSH, VALUE_PUSHED), "push %s", text);
        put(program, noted(PUSH, VALUE_PUSHED), "push rsp");
        put(program, writes(POP, RSP), "pop rsp");
        put(program, writes(POP, RAX), "pop rax");
        put(program, writes(LEAVE, RBP), "leave");
    }
}

static void stack_cases(struct suite *suite)
{
    for (int reg = 0; reg < REGISTERS; reg++)
        pushes_of(suite, reg);
    pushes_of_numbers(suite);
    pushes_of_memory(suite);
    leaves(suite);
    stack_under_flags(suite);
}

/* A jump forwards over an instruction and one backwards, of both lengths. */
static void jumps_if(struct program *program, int condition, int setting)
{
    const char *name = condition_names[condition];
    int label = program->labels;
    program->labels += 5;
    set_flags(program, setting);
    put(program, noted(JUMPS, VALUE_TARGET), "j%s short L%d", name, label);
    put(program, writes(SETUP, RAX), "mov eax, 1");
    put_label(program, label);
    put(program, noted(JUMPS, VALUE_TARGET), "j%s L%d", name, label + 1);
    put(program, writes(SETUP, RAX), "mov eax, 2");
    put_label(program, label + 1);
    put(program, noted(JUMPS, VALUE_TARGET), "jmp L%d", label + 3);
    put_label(program, label + 2);
    put(program, writes(SETUP, RAX), "mov eax, 3");
    put(program, noted(JUMPS, VALUE_TARGET), "jmp short L%d", label + 4);
    put_label(program, label + 3);
    put(program, noted(JUMPS, VALUE_TARGET), "j%s %sL%d", name, setting % 4 < 2 ? "short " : "", label + 2);
    put_label(program, label + 4);
}

/* A jump to the register, which is to be set to the label behind it. */
static void jump_by_register(struct program *program, int reg, const char *prefix)
{
    int label = program->labels++;
    set_to_label(program, reg, label);
    put(program, noted(JUMPS, VALUE_TARGET), "%sjmp %s", prefix, register_name(reg, true));
    put(program, writes(SETUP, RAX), "mov eax, 4");
    put_label(program, label);
}

static void jump_by_memory(struct program *program, const char *prefix)
{
    char text[64];
    int label = program->labels++;
    put_pointer(program, label);
    put(program, writes(LEA, RCX), "lea rcx, [rip+d%d]", label);
    put(program, noted(JUMPS, VALUE_TARGET), "%sjmp [rip+d%d]", prefix, label);
    put(program, writes(SETUP, RAX), "mov eax, 5");
    put_label(program, label);
    label = program->labels++;
    set_to_label(program, RAX, label);
    put(program, stores(SETUP, at_word(7)), "mov %s, rax", memory_text(text, at_word(7)));
    set(program, RDX, SCRATCH + 40);
    put(program, noted(JUMPS, VALUE_TARGET), "%sjmp [rdx+16]", prefix);
    put(program, writes(SETUP, RAX), "mov eax, 6");
    put_label(program, label);
}

static void jump_cases(struct suite *suite)
{
    for (int condition = 0; condition < CONDITIONS; condition++) {
        struct program *program = reserve(suite, 12 * SETTINGS);
        for (int setting = 0; setting < SETTINGS; setting++)
            jumps_if(program, condition, setting);
    }
    struct program *program = reserve(suite, 200);
    put(program, noted(JUMPS, VALUE_TARGET), "jmp rel 5");
    put(program, writes(SETUP, RAX), "mov eax, 7"); /* 5 bytes */
    put(program, noted(JUMPS, VALUE_TARGET), "jmp rel 0");
    put(program, noted(JUMPS, VALUE_TARGET), "jno rel 0");
    for (int reg = 0; reg < REGISTERS; reg++) {
        jump_by_register(program, reg, "");
        jump_by_register(program, reg, "notrack ");
    }
    jump_by_memory(program, "");
    jump_by_memory(program, "notrack ");
}

/* A call of a function that calls another one and returns by this return. */
static void call_by(struct program *program, int label, const char *call, const char *back)
{
    program->labels = label + 3;
    put(program, noted(CALLS, VALUE_CALL), "%s", call);
    show(program, RSP);
    put(program, noted(JUMPS, VALUE_TARGET), "jmp L%d", label + 2);
    put_label(program, label);
    put(program, writes(MOV, RDX), "mov rdx, [rsp]");
    put(program, noted(CALLS, VALUE_CALL), "call L%d", label + 1);
    show(program, RSP);
    put(program, noted(CALLS, VALUE_RETURN), "%s", back);
    put_label(program, label + 1);
    put(program, noted(CALLS, VALUE_RETURN), "ret");
    put_label(program, label + 2);
}

static void call_by_label(struct program *program, const char *back)
{
    char call[64];
    int label = program->labels;
    set(program, RSP, PLACE);
    set_flags(program, label % SETTINGS);
    sprintf(call, "call L%d", label);
    call_by(program, label, call, back);
}

static void call_by_register(struct program *program, int reg, const char *prefix)
{
    char call[64];
    int label = program->labels;
    set(program, RSP, PLACE);
    set_flags(program, label % SETTINGS);
    set_to_label(program, reg, label);
    sprintf(call, "%scall %s", prefix, register_name(reg, true));
    call_by(program, label, call, "ret 8");
}

/* The target is read before RSP goes down. */
static void call_by_memory(struct program *program, const char *prefix)
{
    char call[64];
    int label = program->labels;
    set(program, RSP, PLACE);
    set_to_label(program, RAX, label);
    put(program, writes(LEA, RCX), "lea rcx, [rsp+8]");
    put(program, stores(SETUP, at_register(RCX, 0)), "mov [rcx], rax");
    sprintf(call, "%scall [rsp+8]", prefix);
    call_by(program, label, call, "ret 0");
    label = program->labels;
    put_pointer(program, label);
    sprintf(call, "%scall [rip+d%d]", prefix, label);
    call_by(program, label, call, "ret");
}

static void call_cases(struct suite *suite)
{
    static const char *const returns[] = {"ret", "ret 0", "ret 8", "ret 16", "ret 24", "ret 0x1000"};
    struct program *program = reserve(suite, 1500);
    for (int setting = 0; setting < SETTINGS; setting++)
        call_by_label(program, returns[setting % 6]);
    for (int reg = 0; reg < REGISTERS; reg++) {
        if (reg == RSP)
            continue;
        call_by_register(program, reg, "");
        call_by_register(program, reg, "notrack ");
    }
    call_by_memory(program, "");
    call_by_memory(program, "notrack ");
    put(program, noted(CALLS, VALUE_CALL), "call rel 0");
    put(program, writes(POP, RDI), "pop rdi");
}

void flow_cases(struct suite *suite)
{
    stack_cases(suite);
    jump_cases(suite);
    call_cases(suite);
}
