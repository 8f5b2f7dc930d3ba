/* Random instructions on random values: a long program without loops, whose registers are shown from time to time. */
#include "cosim.h"

#include <stdio.h>

/* Where the random instructions go, and what they are drawn from. */
struct draw {
    struct program *program;
    uint64_t *random;
};

static int below(struct draw *draw, int bound)
{
    return random_below(draw->random, bound);
}

/* A value: an edge, a small one, one of few bits, or any. */
static uint64_t value_of(struct draw *draw)
{
    uint64_t word = random_word(draw->random);
    switch (below(draw, 6)) {
    case 0:
        return edges[below(draw, edge_count)];
    case 1:
        return word % 256;
    case 2:
        return (uint64_t)((int64_t)word >> below(draw, 64));
    case 3:
        return word & random_word(draw->random) & random_word(draw->random);
    case 4:
        return edges[below(draw, edge_count)] + word % 5 - 2;
    default:
        return word;
    }
}

static int32_t immediate_of(struct draw *draw)
{
    int32_t number = (int32_t)value_of(draw);
    return below(draw, 2) ? (int8_t)number : number;
}

/* Sets the registers of a memory operand that leads to a word of the stack or of the data, or to its upper half. */
static struct memory memory_of(struct draw *draw, bool half)
{
    int64_t address = SCRATCH + 8 * below(draw, SCRATCH_WORDS);
    address += half ? 4 * below(draw, 2) : 0;
    int64_t disp = below(draw, 2) ? (int8_t)random_word(draw->random) : (int32_t)random_word(draw->random);
    int base = below(draw, REGISTERS), index = below(draw, REGISTERS), scale = 1 << below(draw, SCALES);
    switch (below(draw, 5)) {
    case 0:
        return at_slot(below(draw, edge_count));
    case 1:
        return at_register(NONE, address);
    case 2:
        set(draw->program, base, (uint64_t)(address - disp));
        return at_register(base, disp);
    default:
        break;
    }
    if (index == RSP || index == base)
        return at_register(NONE, address);
    uint64_t part = value_of(draw);
    set(draw->program, index, part);
    set(draw->program, base, (uint64_t)(address - disp) - part * (uint64_t)scale);
    struct memory memory = at_register(base, disp);
    memory.index = (int8_t)index;
    memory.scale = (int8_t)scale;
    return memory;
}

/* Writes a source, which is a register or memory, and answers the memory. */
static struct memory source_of(struct draw *draw, bool wide, char *to)
{
    struct memory memory = {.there = below(draw, 3) == 0};
    if (memory.there) {
        memory = memory_of(draw, !wide);
        memory_text(to, memory);
    } else {
        sprintf(to, "%s", register_name(below(draw, REGISTERS), wide));
    }
    return memory;
}

static void an_operation(struct draw *draw)
{
    static const char *const names[] = {"add", "or", "adc", "sbb", "and", "sub", "xor", "cmp", "test"};
    char source[64];
    bool wide = below(draw, 2);
    int name = below(draw, 9), reg = below(draw, REGISTERS);
    struct note note = name >= 7 ? reads(RANDOM) : writes(RANDOM, reg);
    if (below(draw, 4) == 0)
        number_text(source, immediate_of(draw));
    else if (name == 8)
        sprintf(source, "%s", register_name(below(draw, REGISTERS), wide));
    else
        note = from(note, source_of(draw, wide, source));
    put(draw->program, note, "%s %s, %s", names[name], register_name(reg, wide), source);
}

/* cmp or test of memory. */
static void a_comparison(struct draw *draw)
{
    char text[64], number[24];
    bool wide = below(draw, 2);
    struct memory memory = memory_of(draw, !wide);
    struct note note = from(reads(RANDOM), memory);
    const char *name = below(draw, 2) ? "cmp" : "test";
    memory_text(text, memory);
    if (below(draw, 2))
        put(draw->program, note, "%s %s, %s", name, text, register_name(below(draw, REGISTERS), wide));
    else
        put(draw->program, note, "%s %s%s, %s", name, wide ? "" : "dword ", text,
            number_text(number, immediate_of(draw)));
}

static void on_one_register(struct draw *draw)
{
    static const char *const names[] = {"inc", "dec", "not", "neg"};
    int reg = below(draw, REGISTERS), name = below(draw, 4);
    put(draw->program, writes(RANDOM, reg), "%s %s", names[name], register_name(reg, below(draw, 2)));
}

static void a_shift(struct draw *draw)
{
    static const char *const names[] = {"shl", "shr", "sar"};
    const char *name = names[below(draw, 3)];
    int reg = below(draw, REGISTERS);
    struct note note = writes(RANDOM, reg);
    note.wide = below(draw, 2);
    if (below(draw, 2)) {
        note.undefined = AFTER_SHIFT_CL;
        put(draw->program, note, "%s %s, cl", name, register_name(reg, note.wide));
    } else {
        note.undefined = AFTER_SHIFT;
        note.number = (int16_t)below(draw, below(draw, 2) ? 256 : 4);
        put(draw->program, note, "%s %s, %d", name, register_name(reg, note.wide), note.number);
    }
}

static void an_imul(struct draw *draw)
{
    char source[64];
    int reg = below(draw, REGISTERS);
    struct note note = writes(RANDOM, reg);
    note.undefined = AFTER_IMUL;
    note.wide = below(draw, 2);
    note = from(note, source_of(draw, note.wide, source));
    put(draw->program, note, "imul %s, %s", register_name(reg, note.wide), source);
}

static void a_cmov(struct draw *draw)
{
    char source[64];
    bool wide = below(draw, 2);
    int reg = below(draw, REGISTERS);
    struct note note = from(writes(RANDOM, reg), source_of(draw, wide, source));
    put(draw->program, note, "cmov%s %s, %s", condition_names[below(draw, CONDITIONS)], register_name(reg, wide),
        source);
}

static void a_load(struct draw *draw)
{
    char source[64];
    int reg = below(draw, REGISTERS), kind = below(draw, 4);
    if (kind == 0) {
        struct memory memory = memory_of(draw, true);
        memory_text(source, memory);
        put(draw->program, from(writes(RANDOM, reg), memory), "movzx %s, byte %s", register_name(reg, true), source);
        return;
    }
    struct note note = from(writes(RANDOM, reg), source_of(draw, kind == 2, source));
    put(draw->program, note, "%s %s, %s", kind == 1 ? "movsxd" : "mov", register_name(reg, kind < 3), source);
}

static void a_store(struct draw *draw)
{
    char text[64], number[24];
    struct memory memory = memory_of(draw, false);
    memory_text(text, memory);
    if (below(draw, 3))
        put(draw->program, stores(RANDOM, memory), "mov %s, %s", text, register_name(below(draw, REGISTERS), true));
    else
        put(draw->program, stores(RANDOM, memory), "mov %s, %s", text, number_text(number, immediate_of(draw)));
}

static void an_exchange(struct draw *draw)
{
    static const char *const names[] = {"xchg", "lock xadd", "lock cmpxchg"};
    char text[64];
    int reg = below(draw, REGISTERS), name = below(draw, 4);
    if (name == 3) {
        put(draw->program, writes(RANDOM, reg), "xchg %s, %s", register_name(reg, true),
            register_name(below(draw, REGISTERS), true));
        return;
    }
    struct memory memory = memory_of(draw, false);
    memory_text(text, memory);
    if (name == 2 && below(draw, 2) && memory.base != RAX && memory.index != RAX)
        put(draw->program, from(writes(SETUP, RAX), memory), "mov rax, %s", text);
    put(draw->program, finds(RANDOM, memory), "%s %s, %s", names[name], text, register_name(reg, true));
    if (memory.base != RAX && memory.index != RAX && memory.base != reg && memory.index != reg)
        put(draw->program, from(writes(SETUP, reg), memory), "mov %s, %s", register_name(reg, true), text);
}

static void a_lea(struct draw *draw)
{
    char text[64];
    int base = below(draw, REGISTERS + 1);
    struct memory memory = at_register(base, immediate_of(draw));
    memory.index = (int8_t)below(draw, REGISTERS + 1);
    memory.scale = (int8_t)(1 << below(draw, SCALES));
    if (memory.index == RSP)
        memory.index = NONE;
    int reg = below(draw, REGISTERS);
    put(draw->program, writes(RANDOM, reg), "lea %s, %s", register_name(reg, below(draw, 2)),
        memory_text(text, memory));
}

static void on_the_stack(struct draw *draw)
{
    char text[64];
    int reg = below(draw, REGISTERS);
    struct memory memory = memory_of(draw, false);
    memory_text(text, memory.base == RSP ? at_word(reg) : memory);
    set(draw->program, RSP, 0x7fff0000 + 8 * (uint64_t)below(draw, 512));
    switch (below(draw, 4)) {
    case 0:
        put(draw->program, noted(RANDOM, VALUE_PUSHED), "push %s", register_name(reg, true));
        break;
    case 1:
        put(draw->program, noted(RANDOM, VALUE_PUSHED), "push %s", number_text(text, immediate_of(draw)));
        break;
    case 2:
        put(draw->program, noted(RANDOM, VALUE_PUSHED), "push %s", text);
        break;
    default:
        put(draw->program, writes(RANDOM, reg), "pop %s", register_name(reg, true));
        break;
    }
}

static void a_jump(struct draw *draw)
{
    int label = draw->program->labels++;
    const char *condition = condition_names[below(draw, CONDITIONS)];
    put(draw->program, noted(RANDOM, VALUE_TARGET), "j%s %sL%d", condition, below(draw, 2) ? "short " : "", label);
    on_one_register(draw);
    put_label(draw->program, label);
}

static void a_case(struct draw *draw)
{
    static void (*const kinds[])(struct draw *) = {
        an_operation, an_operation, an_operation, an_operation, a_comparison, on_one_register,
        a_shift,      a_shift,      an_imul,      a_cmov,       a_cmov,       a_load,
        a_load,       a_store,      an_exchange,  a_lea,        on_the_stack, a_jump};
    enum { KINDS = sizeof kinds / sizeof *kinds };
    int reg = below(draw, 2 * REGISTERS);
    if (reg < REGISTERS)
        set(draw->program, reg, value_of(draw));
    if (below(draw, 4) == 0)
        set_flags(draw->program, below(draw, SETTINGS));
    kinds[below(draw, KINDS)](draw);
}

void random_cases(struct suite *suite, int count)
{
    enum { BETWEEN = 24, LONGEST = 10 };
    for (int number = 0; number < count; number += BETWEEN) {
        struct draw draw = {reserve(suite, LONGEST * BETWEEN + REGISTERS), &suite->random};
        for (int turn = 0; turn < BETWEEN; turn++)
            a_case(&draw);
        for (int reg = 0; reg < REGISTERS; reg++)
            show(draw.program, reg);
    }
}
