/* Cases of the operations on registers, numbers and memory that compute something. */
#include "cosim.h"

static const struct memory no_memory;
static const char *const operations[8] = {"add", "or", "adc", "sbb", "and", "sub", "xor", "cmp"};
enum { CMP = 7 };

/* Pairs of a destination and a source. */
static const int pairs[][2] = {{RAX, RBX}, {RCX, RDX}, {R8, RAX},  {RBX, R15}, {RDI, RSI}, {R12, RCX},
                               {RBP, R9},  {R13, R14}, {RDX, RSP}, {RSP, RBP}, {R15, RAX}, {RSI, R10}};
enum { PAIRS = sizeof pairs / sizeof *pairs };

static struct note of_operation(int operation, enum group group, int reg)
{
    return operation == CMP ? reads(group) : writes(group, reg);
}

/* One operation with one source, over all values of the destination, with the carry clear and set. */
static void over_destinations(struct program *program, int operation, bool wide, int reg, const char *source,
                              struct memory memory)
{
    for (int edge = 0; edge < edge_count; edge++) {
        for (int carry = 0; carry < 2; carry++) {
            set(program, reg, edges[edge]);
            set_carry(program, carry);
            put(program, from(of_operation(operation, ALU, reg), memory), "%s %s, %s", operations[operation],
                register_name(reg, wide), source);
        }
    }
}

static void operation_with_register(struct suite *suite, int operation, bool wide)
{
    for (int edge = 0; edge < edge_count; edge++) {
        const int *pair = pairs[(edge + operation) % PAIRS];
        struct program *program = reserve(suite, 1 + 6 * (size_t)edge_count);
        set(program, pair[1], edges[edge]);
        over_destinations(program, operation, wide, pair[0], register_name(pair[1], wide), no_memory);
    }
}

static void operation_with_memory(struct suite *suite, int operation, bool wide)
{
    char text[64];
    for (int edge = 0; edge < edge_count; edge++) {
        struct program *program = reserve(suite, 6 * (size_t)edge_count);
        int reg = pairs[(edge + operation) % PAIRS][0];
        over_destinations(program, operation, wide, reg, memory_text(text, at_slot(edge)), at_slot(edge));
    }
}

static void operation_with_number(struct suite *suite, int operation, bool wide)
{
    char text[64];
    for (int place = 0; place < immediate_count; place++) {
        struct program *program = reserve(suite, 6 * (size_t)edge_count);
        int reg = pairs[(place + operation) % PAIRS][0];
        over_destinations(program, operation, wide, reg, number_text(text, immediates[place]), no_memory);
    }
}

static void operation_with_itself(struct suite *suite, int operation, bool wide)
{
    for (int reg = 0; reg < REGISTERS; reg += 5) {
        struct program *program = reserve(suite, 6 * (size_t)edge_count);
        over_destinations(program, operation, wide, reg, register_name(reg, wide), no_memory);
    }
}

/* cmp or test of memory with a register or a number. */
static void memory_with_source(struct program *program, const char *name, enum group group, int edge, bool wide)
{
    char text[64], number[24];
    struct note note = from(reads(group), at_slot(edge));
    memory_text(text, at_slot(edge));
    for (int other = 0; other < edge_count; other++) {
        int reg = pairs[other % PAIRS][0];
        set(program, reg, edges[other]);
        put(program, note, "%s %s, %s", name, text, register_name(reg, wide));
    }
    for (int place = 0; place < immediate_count; place++)
        put(program, note, "%s %s%s, %s", name, wide ? "" : "dword ", text, number_text(number, immediates[place]));
}

static void operation_cases(struct suite *suite, bool wide)
{
    for (int operation = 0; operation < 8; operation++) {
        operation_with_register(suite, operation, wide);
        operation_with_memory(suite, operation, wide);
        operation_with_number(suite, operation, wide);
        operation_with_itself(suite, operation, wide);
    }
    for (int edge = 0; edge < edge_count; edge++) {
        struct program *program = reserve(suite, 4 * (size_t)(2 * edge_count + immediate_count));
        memory_with_source(program, "cmp", ALU, edge, wide);
        memory_with_source(program, "test", TEST, edge, wide);
    }
}

static void test_cases(struct suite *suite, bool wide)
{
    char number[24];
    for (int edge = 0; edge < edge_count; edge++) {
        struct program *program = reserve(suite, 4 * (size_t)(edge_count + immediate_count));
        const int *pair = pairs[edge % PAIRS];
        set(program, pair[1], edges[edge]);
        for (int other = 0; other < edge_count; other++) {
            set(program, pair[0], edges[other]);
            put(program, reads(TEST), "test %s, %s", register_name(pair[0], wide), register_name(pair[1], wide));
        }
        for (int place = 0; place < immediate_count; place++)
            put(program, reads(TEST), "test %s, %s", register_name(pair[1], wide),
                number_text(number, immediates[place]));
    }
}

/* Factors whose products come close to the signed ends of 32 and 64 bits. */
static const uint64_t factors[] = {46340,      46341,      (uint64_t)-46340,      (uint64_t)-46341,
                                   0xb504f333, 0xb504f334, -UINT64_C(0xb504f333), -UINT64_C(0xb504f334),
                                   0x10000,    0x200000000};
enum { FACTORS = sizeof factors / sizeof *factors };

static uint64_t factor(int place)
{
    return place < edge_count ? edges[place] : factors[place - edge_count];
}

static struct note of_imul(int reg, bool wide)
{
    struct note note = writes(IMUL, reg);
    note.undefined = AFTER_IMUL;
    note.wide = wide;
    return note;
}

static void imul_by(struct suite *suite, int place, bool wide)
{
    char text[64];
    int count = edge_count + FACTORS;
    struct program *program = reserve(suite, 1 + 4 * (size_t)count);
    const int *pair = pairs[place % PAIRS];
    struct note note = of_imul(pair[0], wide);
    const char *name = register_name(pair[0], wide);
    set(program, pair[1], factor(place));
    for (int other = 0; other < count; other++) {
        set(program, pair[0], factor(other));
        put(program, note, "imul %s, %s", name, register_name(pair[1], wide));
        if (place >= edge_count)
            continue;
        set(program, pair[0], factor(other));
        put(program, from(note, at_slot(place)), "imul %s, %s", name, memory_text(text, at_slot(place)));
    }
}

static void imul_cases(struct suite *suite, bool wide)
{
    for (int place = 0; place < edge_count + FACTORS; place++)
        imul_by(suite, place, wide);
}

static void one_register(struct suite *suite, const char *name, enum group group, int number, bool wide)
{
    for (int edge = 0; edge < edge_count; edge++) {
        struct program *program = reserve(suite, 5 * SETTINGS);
        int reg = pairs[(edge + number) % PAIRS][0];
        for (int setting = 0; setting < SETTINGS; setting++) {
            set(program, reg, edges[edge]);
            set_flags(program, setting);
            put(program, writes(group, reg), "%s %s", name, register_name(reg, wide));
        }
    }
}

static void one_register_cases(struct suite *suite, bool wide)
{
    static const char *const names[] = {"inc", "dec", "not", "neg"};
    for (int number = 0; number < 4; number++)
        one_register(suite, names[number], number < 2 ? INC_DEC : NOT_NEG, number, wide);
}

static const char *const shift_names[] = {"shl", "shr", "sar"};

static struct note of_shift(int reg, bool wide, int count)
{
    struct note note = writes(SHIFTS, reg);
    note.undefined = AFTER_SHIFT;
    note.number = (int16_t)count;
    note.wide = wide;
    return note;
}

static struct note of_shift_cl(int reg, bool wide)
{
    struct note note = of_shift(reg, wide, 0);
    note.undefined = AFTER_SHIFT_CL;
    return note;
}

/* One shift by one count, as a number and in CL, over all values. The register rcx has other bits above CL. */
static void shift_by(struct suite *suite, int shift, bool wide, int count)
{
    struct program *program = reserve(suite, 1 + 6 * (size_t)edge_count);
    set(program, RCX, (random_word(&suite->random) & ~UINT64_C(0xff)) | (uint64_t)count);
    for (int edge = 0; edge < edge_count; edge++) {
        int reg = pairs[(edge + count) % PAIRS][0];
        if (reg == RCX)
            reg = R10;
        set(program, reg, edges[edge]);
        set_carry(program, edge % 2);
        put(program, of_shift(reg, wide, count), "%s %s, %d", shift_names[shift], register_name(reg, wide), count);
        set(program, reg, edges[edge]);
        set_carry(program, edge % 2);
        put(program, of_shift_cl(reg, wide), "%s %s, cl", shift_names[shift], register_name(reg, wide));
    }
}

/* Shifts under each setting of the flags: by 0 they keep them. */
static void shift_under_flags(struct suite *suite, int shift, bool wide, int count)
{
    struct program *program = reserve(suite, 2 + 12 * SETTINGS);
    set(program, RCX, (uint64_t)count);
    for (int setting = 0; setting < SETTINGS; setting++) {
        set(program, RSI, 0x8123456789abcdef);
        set_flags(program, setting);
        put(program, of_shift(RSI, wide, count), "%s %s, %d", shift_names[shift], register_name(RSI, wide), count);
        set(program, R9, 0x8123456789abcdef);
        set_flags(program, setting);
        put(program, of_shift_cl(R9, wide), "%s %s, cl", shift_names[shift], register_name(R9, wide));
    }
    put(program, of_shift_cl(RCX, wide), "%s %s, cl", shift_names[shift], register_name(RCX, wide));
}

static void shift_cases(struct suite *suite, bool wide)
{
    static const int further[] = {65, 95, 96, 97, 127, 128, 129, 192, 224, 254, 255};
    static const int under[] = {0, 1, 2, 31, 32, 33, 63, 64, 128};
    for (int shift = 0; shift < 3; shift++) {
        for (int count = 0; count <= 64; count++)
            shift_by(suite, shift, wide, count);
        for (size_t place = 0; place < sizeof further / sizeof *further; place++)
            shift_by(suite, shift, wide, further[place]);
        for (size_t place = 0; place < sizeof under / sizeof *under; place++)
            shift_under_flags(suite, shift, wide, under[place]);
    }
}

static struct note of_cmov(int reg, int condition)
{
    struct note note = writes(CMOV, reg);
    note.number = (int16_t)condition;
    return note;
}

static void cmov_under(struct program *program, int condition, bool wide, int setting)
{
    char text[64];
    const int *pair = pairs[(condition + setting) % PAIRS];
    const char *to = register_name(pair[0], wide);
    set(program, pair[0], 0x0123456789abcdef);
    set(program, pair[1], 0xfedcba9876543210);
    set_flags(program, setting);
    put(program, of_cmov(pair[0], condition), "cmov%s %s, %s", condition_names[condition], to,
        register_name(pair[1], wide));
    set(program, pair[0], 0x8765432187654321);
    struct memory memory = at_slot(8 + setting % 4);
    memory_text(text, memory);
    put(program, from(of_cmov(pair[0], condition), memory), "cmov%s %s, %s", condition_names[condition], to, text);
}

static void cmov_cases(struct suite *suite, bool wide)
{
    for (int condition = 0; condition < CONDITIONS; condition++) {
        struct program *program = reserve(suite, 9 * SETTINGS);
        for (int setting = 0; setting < SETTINGS; setting++)
            cmov_under(program, condition, wide, setting);
    }
}

static void plain_cases(struct suite *suite)
{
    static const char *const names[] = {"nop", "pause", "endbr64", "stc", "clc"};
    struct program *program = reserve(suite, 20 * SETTINGS);
    for (int setting = 0; setting < SETTINGS; setting++) {
        for (int name = 0; name < 5; name++) {
            set_flags(program, setting);
            put(program, reads(name < 3 ? NOPS : CARRY), "%s", names[name]);
        }
    }
}

void arithmetic_cases(struct suite *suite)
{
    for (int wide = 0; wide < 2; wide++) {
        operation_cases(suite, wide);
        test_cases(suite, wide);
        imul_cases(suite, wide);
        one_register_cases(suite, wide);
        shift_cases(suite, wide);
        cmov_cases(suite, wide);
    }
    plain_cases(suite);
}
