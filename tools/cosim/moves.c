/* Cases of the moves, of lea, of the exchanges with memory, and of the forms of memory operands. */
#include "cosim.h"

static void numbers_to(struct suite *suite, int reg)
{
    char number[24];
    struct program *program = reserve(suite, 3 * (size_t)(edge_count + immediate_count));
    const char *wide = register_name(reg, true), *narrow = register_name(reg, false);
    for (int edge = 0; edge < edge_count; edge++) {
        number_text(number, (int64_t)edges[edge]);
        put(program, writes(MOV, reg), "mov %s, %s", wide, number);
        put(program, writes(MOVABS, reg), "movabs %s, %s", wide, number);
    }
    for (int place = 0; place < immediate_count; place++) {
        number_text(number, immediates[place]);
        put(program, writes(MOVABS, reg), "movabs %s, %s", wide, number);
        put(program, writes(MOV, reg), "mov %s, %s", narrow, number);
        put(program, writes(MOV, reg), "mov %s, %s", wide, number);
    }
}

static void between_registers(struct suite *suite, int to)
{
    struct program *program = reserve(suite, 6 * REGISTERS);
    for (int from = 0; from < REGISTERS; from++) {
        set(program, from, edges[(to + from) % edge_count]);
        put(program, writes(MOV, to), "mov %s, %s", register_name(to, true), register_name(from, true));
        set(program, from, edges[(to + from + 5) % edge_count]);
        put(program, writes(MOV, to), "mov %s, %s", register_name(to, false), register_name(from, false));
        set(program, from, edges[(to + from + 7) % edge_count]);
        put(program, writes(MOVSXD, to), "movsxd %s, %s", register_name(to, true), register_name(from, false));
    }
}

static void loads_to(struct suite *suite, int reg)
{
    char text[64];
    struct program *program = reserve(suite, 4 * (size_t)edge_count);
    for (int edge = 0; edge < edge_count; edge++) {
        struct memory memory = at_slot(edge);
        memory_text(text, memory);
        put(program, from(writes(MOV, reg), memory), "mov %s, %s", register_name(reg, true), text);
        put(program, from(writes(MOV, reg), memory), "mov %s, %s", register_name(reg, false), text);
        put(program, from(writes(MOVSXD, reg), memory), "movsxd %s, %s", register_name(reg, true), text);
        put(program, from(writes(MOVZX, reg), memory), "movzx %s, byte %s", register_name(reg, true), text);
    }
}

static void stores_from(struct suite *suite, int reg)
{
    char text[64], number[24];
    struct program *program = reserve(suite, 3 * (size_t)edge_count + 4 * (size_t)immediate_count);
    for (int edge = 0; edge < edge_count; edge++) {
        struct memory memory = at_word((edge + reg) % SCRATCH_WORDS);
        memory_text(text, memory);
        set(program, reg, edges[edge]);
        put(program, stores(MOV, memory), "mov %s, %s", text, register_name(reg, true));
        put(program, from(writes(MOV, R10), memory), "mov r10, %s", text);
    }
    for (int place = 0; place < immediate_count; place++) {
        struct memory memory = at_slot(place);
        memory_text(text, memory);
        put(program, stores(MOV, memory), "mov %s, %s", text, number_text(number, immediates[place]));
        put(program, from(writes(MOV, reg), memory), "mov %s, %s", register_name(reg, true), text);
    }
    /* The data has its own values again. */
    for (int place = 0; place < immediate_count; place++) {
        set(program, RAX, edges[place]);
        put(program, stores(SETUP, at_slot(place)), "mov %s, rax", memory_text(text, at_slot(place)));
    }
}

/* The parts of a word that loads of a byte and of 32 bits read. */
static void parts_of_words(struct suite *suite)
{
    char text[64];
    struct program *program = reserve(suite, 16 * (size_t)edge_count);
    for (int edge = 0; edge < edge_count; edge++) {
        put(program, writes(LEA, RBX), "lea rbx, %s", memory_text(text, at_slot(edge)));
        for (int byte = 0; byte < 8; byte++) {
            int reg = (edge + byte) % REGISTERS == RBX ? RAX : (edge + byte) % REGISTERS;
            put(program, from(writes(MOVZX, reg), at_register(RBX, byte)), "movzx %s, byte [rbx+%d]",
                register_name(reg, byte % 2), byte);
        }
        put(program, from(writes(MOV, RCX), at_register(RBX, 4)), "mov ecx, [rbx+4]");
        put(program, from(writes(MOVSXD, RDX), at_register(RBX, 4)), "movsxd rdx, [rbx+4]");
    }
}

static void exchanges_between(struct suite *suite, int to)
{
    struct program *program = reserve(suite, 5 * REGISTERS);
    for (int from = 0; from < REGISTERS; from++) {
        set(program, to, edges[(to + from) % edge_count]);
        set(program, from, edges[(to + from + 3) % edge_count]);
        put(program, writes(XCHG, to), "xchg %s, %s", register_name(to, true), register_name(from, true));
        show(program, to);
        show(program, from);
    }
}

/* An exchange or an addition of all pairs of values, with the register and the word shown afterwards. */
static void with_memory(struct suite *suite, const char *name, enum group group, int edge)
{
    char text[64];
    struct program *program = reserve(suite, 6 * (size_t)edge_count);
    struct memory memory = at_word(edge);
    memory_text(text, memory);
    for (int other = 0; other < edge_count; other++) {
        int reg = (edge + other) % REGISTERS;
        set(program, reg, edges[edge]);
        put(program, stores(SETUP, memory), "mov %s, %s", text, register_name(reg, true));
        set(program, reg, edges[other]);
        put(program, finds(group, memory), "%s %s, %s", name, text, register_name(reg, true));
        show(program, reg);
        put(program, writes(SETUP, reg), "mov %s, %s", register_name(reg, true), text);
    }
}

static void compare_exchanges(struct suite *suite, int edge)
{
    char text[64];
    struct program *program = reserve(suite, 9 * (size_t)edge_count);
    struct memory memory = at_word(edge + 1);
    memory_text(text, memory);
    for (int other = 0; other < edge_count; other++) {
        int reg = (edge + other) % REGISTERS;
        set(program, RAX, edges[edge]);
        put(program, stores(SETUP, memory), "mov %s, rax", text);
        if (reg != RAX)
            set(program, reg, edges[other] ^ 0x5a5a);
        set(program, RAX, edges[other]);
        put(program, finds(CMPXCHG, memory), "lock cmpxchg %s, %s", text, register_name(reg, true));
        show(program, RAX);
        show(program, reg);
        put(program, writes(SETUP, RDX), "mov rdx, %s", text);
    }
}

static void exchange_cases(struct suite *suite)
{
    for (int reg = 0; reg < REGISTERS; reg++)
        exchanges_between(suite, reg);
    for (int edge = 0; edge < edge_count; edge++) {
        with_memory(suite, "xchg", XCHG, edge);
        with_memory(suite, "lock xadd", XADD, edge);
        compare_exchanges(suite, edge);
    }
}

/* Moves keep the flags. */
static void under_flags(struct suite *suite)
{
    char word[64], slot[64];
    struct program *program = reserve(suite, 20 * SETTINGS);
    memory_text(word, at_word(9));
    memory_text(slot, at_slot(8));
    for (int setting = 0; setting < SETTINGS; setting++) {
        set_flags(program, setting);
        put(program, writes(MOV, RAX), "mov rax, %s", slot);
        put(program, writes(MOV, RCX), "mov ecx, eax");
        put(program, writes(MOV, RDX), "mov rdx, -1");
        put(program, writes(MOV, RBX), "mov ebx, 0");
        put(program, stores(MOV, at_word(9)), "mov %s, rax", word);
        put(program, stores(MOV, at_word(9)), "mov %s, 5", word);
        put(program, writes(MOVABS, RSI), "movabs rsi, 0");
        put(program, writes(MOVZX, RDI), "movzx rdi, byte %s", slot);
        put(program, writes(MOVSXD, R8), "movsxd r8, ecx");
        put(program, writes(LEA, R9), "lea r9, [rdx+rdx*2+7]");
        put(program, writes(XCHG, RAX), "xchg rax, rdx");
        put(program, finds(XCHG, at_word(9)), "xchg %s, rax", word);
        put(program, finds(XADD, at_word(9)), "lock xadd %s, rdx", word);
        set_flags(program, setting);
        put(program, finds(CMPXCHG, at_word(9)), "lock cmpxchg %s, rcx", word);
    }
}

/* A base, an index that is no rsp, and a displacement. */
static void lea_of(struct program *program, int base, int index, int scale, int64_t disp)
{
    char text[64];
    struct memory memory = at_register(base, disp);
    memory.index = (int8_t)index;
    memory.scale = (int8_t)scale;
    memory_text(text, memory);
    int reg = (base + index + scale) % REGISTERS;
    put(program, writes(LEA, reg), "lea %s, %s", register_name(reg, (index + scale) % 3), text);
    set(program, reg, edges[(reg + scale) % edge_count] ^ (uint64_t)disp);
}

static void leas_of(struct suite *suite, int base, int index)
{
    static const int64_t disps[] = {0, 1, -1, 0x7f, -0x80, 0x80, -0x81, 0x7fffffff, -0x80000000LL};
    enum { DISPS = sizeof disps / sizeof *disps };
    struct program *program = reserve(suite, 2 * SCALES * DISPS);
    for (int disp = 0; disp < DISPS; disp++)
        for (int scale = 0; scale < (index == NONE ? 1 : SCALES); scale++)
            lea_of(program, base, index, 1 << scale, disps[disp]);
}

static void leas_without_base(struct suite *suite)
{
    char text[64], number[24];
    struct program *program = reserve(suite, 60 + 2 * (size_t)immediate_count);
    for (int place = 0; place < immediate_count; place++) {
        number_text(number, immediates[place]);
        const char *sign = immediates[place] < 0 ? "" : "+";
        put(program, writes(LEA, RAX), "lea rax, [rip%s%s]", sign, number);
        put(program, writes(LEA, R9), "lea r9d, [rip%s%s]", sign, number);
    }
    for (int slot = 0; slot < edge_count; slot++) {
        put(program, writes(LEA, RCX), "lea rcx, %s", memory_text(text, at_slot(slot)));
        put(program, writes(LEA, RDX), "lea rdx, [v%d]", slot);
        put(program, writes(LEA, R15), "lea r15d, [rcx+rdx*2+v%d]", slot);
    }
}

static void lea_cases(struct suite *suite)
{
    for (int base = 0; base <= REGISTERS; base++)
        for (int index = 0; index <= REGISTERS; index++)
            if (index != RSP)
                leas_of(suite, base, index);
    leas_without_base(suite);
}

/* Sets the registers of an operand so that it stands at that address. */
static struct memory leading_to(struct program *program, int base, int index, int scale, int64_t disp, int64_t address)
{
    struct memory memory = at_register(base, disp);
    memory.index = (int8_t)index;
    memory.scale = (int8_t)scale;
    int64_t part = 0x10;
    if (index != NONE)
        set(program, index, (uint64_t)part);
    if (index == NONE)
        memory.disp = base == NONE ? address : disp;
    else if (base == index || base == NONE)
        memory.disp = address - part * (scale + (base == index));
    if (base != NONE && base != index)
        set(program, base, (uint64_t)(address - disp - (index == NONE ? 0 : part * scale)));
    return memory;
}

/* A store, a load of 32 bits and one by the word's plain address, each at one place by one form of operand. */
static void store_and_load(struct program *program, int base, int index, int scale, int turn)
{
    static const int64_t disps[] = {0, 8, -8, 0x78, -0x80, 0x80, -0x88, 0x12345678, -0x76543210};
    char text[64], plain[64];
    int word = turn % SCRATCH_WORDS, source = R10;
    while (source == base || source == index)
        source++;
    struct memory memory = leading_to(program, base, index, scale, disps[turn % 9], SCRATCH + 8 * word);
    memory_text(text, memory);
    set(program, source, edges[turn % edge_count] + (uint64_t)turn);
    put(program, stores(ADDRESSING, memory), "mov %s, %s", text, register_name(source, true));
    put(program, from(writes(ADDRESSING, source), memory), "mov %s, %s", register_name(source, false), text);
    put(program, writes(ADDRESSING, source), "mov %s, %s", register_name(source, true),
        memory_text(plain, at_word(word)));
}

static void addressing_cases(struct suite *suite)
{
    int turn = 0;
    for (int base = 0; base <= REGISTERS; base++) {
        for (int index = 0; index <= REGISTERS; index++) {
            if (index == RSP)
                continue;
            struct program *program = reserve(suite, 6 * SCALES);
            for (int scale = 0; scale < (index == NONE ? 1 : SCALES); scale++)
                store_and_load(program, base, index, 1 << scale, turn++);
        }
    }
}

void move_cases(struct suite *suite)
{
    for (int reg = 0; reg < REGISTERS; reg++) {
        numbers_to(suite, reg);
        between_registers(suite, reg);
        loads_to(suite, reg);
        stores_from(suite, reg);
    }
    parts_of_words(suite);
    under_flags(suite);
    exchange_cases(suite);
    lea_cases(suite);
    addressing_cases(suite);
}
