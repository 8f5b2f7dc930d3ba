/* Programs in the language of cetvm's assembler. */
#include "cosim.h"

#include <stdarg.h>
#include <stdio.h>
#include <string.h>

struct memory at_slot(int slot)
{
    return (struct memory){.there = true, .base = NONE, .index = NONE, .scale = 1, .rip = true, .slot = (int16_t)slot};
}

struct memory at_word(int word)
{
    return at_register(NONE, SCRATCH + 8 * word);
}

struct memory at_register(int base, int64_t disp)
{
    return (struct memory){.there = true, .base = (int8_t)base, .index = NONE, .scale = 1, .slot = -1, .disp = disp};
}

/* Writes a memory operand, and answers where it was written. */
char *memory_text(char *to, struct memory memory)
{
    char *end = to + sprintf(to, "[");
    const char *joint = "";
    if (memory.rip || memory.base != NONE) {
        end += sprintf(end, "%s", memory.rip ? "rip" : register_name(memory.base, true));
        joint = "+";
    }
    if (memory.index != NONE) {
        end += sprintf(end, "%s%s*%d", joint, register_name(memory.index, true), memory.scale);
        joint = "+";
    }
    if (memory.slot >= 0) {
        end += sprintf(end, "%sv%d", joint, memory.slot);
    } else if (memory.disp || !*joint) {
        char number[24];
        end += sprintf(end, "%s%s", memory.disp < 0 ? "" : joint, number_text(number, memory.disp));
    }
    sprintf(end, "]");
    return to;
}

struct note noted(enum group group, enum value value)
{
    return (struct note){.group = group, .value = value, .reg = NONE};
}

struct note reads(enum group group)
{
    return noted(group, VALUE_ZERO);
}

struct note writes(enum group group, int reg)
{
    struct note note = noted(group, VALUE_REGISTER);
    note.reg = (int16_t)reg;
    return note;
}

/* The same instruction with that memory operand. */
struct note from(struct note note, struct memory memory)
{
    note.memory = memory;
    return note;
}

struct note stores(enum group group, struct memory memory)
{
    return from(noted(group, VALUE_STORED), memory);
}

struct note finds(enum group group, struct memory memory)
{
    return from(noted(group, VALUE_FOUND), memory);
}

static void put_text(struct program *program, const char *format, va_list arguments)
{
    enum { LONGEST = 256 };
    if (program->room - program->length < LONGEST) {
        program->room = 2 * program->room + LONGEST;
        program->text = grown(program->text, program->room);
    }
    program->length += (size_t)vsnprintf(program->text + program->length, LONGEST, format, arguments);
    program->text[program->length++] = '\n';
}

static void put_line(struct program *program, const char *format, ...) __attribute__((format(printf, 2, 3)));

static void put_line(struct program *program, const char *format, ...)
{
    va_list arguments;
    va_start(arguments, format);
    put_text(program, format, arguments);
    va_end(arguments);
}

/* Adds an instruction. */
void put(struct program *program, struct note note, const char *format, ...)
{
    if (program->count == program->notes_room) {
        program->notes_room = 2 * program->notes_room + 1024;
        program->notes = grown(program->notes, program->notes_room * sizeof note);
    }
    program->notes[program->count++] = note;
    va_list arguments;
    va_start(arguments, format);
    put_text(program, format, arguments);
    va_end(arguments);
}

void put_label(struct program *program, int label)
{
    put_line(program, "L%d:", label);
}

/* Adds the word `d` of that label to the data. */
void put_pointer(struct program *program, int label)
{
    put_line(program, ".data");
    put_line(program, "d%d: .quad L%d", label, label);
    put_line(program, ".text");
}

void set(struct program *program, int reg, uint64_t value)
{
    char number[24];
    put(program, writes(SETUP, reg), "mov %s, %s", register_name(reg, true), number_text(number, (int64_t)value));
}

void set_to_label(struct program *program, int reg, int label)
{
    put(program, writes(SETUP, reg), "mov %s, L%d", register_name(reg, true), label);
}

/* Moves a register to itself, so that a record shows it. */
void show(struct program *program, int reg)
{
    put(program, writes(SETUP, reg), "mov %s, %s", register_name(reg, true), register_name(reg, true));
}

void set_carry(struct program *program, bool carry)
{
    put(program, reads(SETUP), carry ? "stc" : "clc");
}

/* Sets the flags by r11. The settings are all that results have: no result has ZF with SF, or ZF without PF. */
void set_flags(struct program *program, int setting)
{
    static const struct {
        uint64_t value;
        const char *line;
    } makers[SETTINGS / 2] = {
        {1, "test r11, r11"},                  /* */
        {3, "test r11, r11"},                  /* PF */
        {0xfffffffffffffffe, "test r11, r11"}, /* SF */
        {0xffffffffffffffff, "test r11, r11"}, /* SF PF */
        {0x8000000000000000, "cmp r11, 2"},    /* OF */
        {0x8000000000000000, "cmp r11, 1"},    /* OF PF */
        {0x7fffffffffffffff, "cmp r11, -2"},   /* OF SF */
        {0x7fffffffffffffff, "cmp r11, -1"},   /* OF SF PF */
        {0, "test r11, r11"},                  /* ZF PF */
        {0x8000000000000000, "add r11, r11"},  /* OF ZF PF */
    };
    const char *line = makers[setting / 2].line;
    set(program, R11, makers[setting / 2].value);
    put(program, line[0] == 'a' ? writes(SETUP, R11) : reads(SETUP), "%s", line);
    set_carry(program, setting % 2);
}

/* Begins a program with the edge values in its data, and with values in the words of the stack that it uses. */
static void begin(struct program *program, uint64_t *random)
{
    char text[64];
    put_line(program, ".data");
    for (int edge = 0; edge < edge_count; edge++)
        put_line(program, "v%d: .quad 0x%llx", edge, (unsigned long long)edges[edge]);
    put_line(program, ".text");
    put_line(program, "_start:");
    for (int word = 0; word < SCRATCH_WORDS; word++) {
        set(program, RAX, word % 2 ? random_word(random) : edges[word / 2 % edge_count]);
        put(program, stores(SETUP, at_word(word)), "mov %s, rax", memory_text(text, at_word(word)));
    }
}

/* Answers a program that has room for so many further instructions. */
struct program *reserve(struct suite *suite, size_t steps)
{
    if (suite->count && suite->programs[suite->count - 1].count + steps <= MOST_STEPS)
        return &suite->programs[suite->count - 1];
    if (suite->count)
        finish(&suite->programs[suite->count - 1]);
    if (suite->count == suite->room) {
        suite->room = 2 * suite->room + 8;
        suite->programs = grown(suite->programs, suite->room * sizeof *suite->programs);
    }
    struct program *program = &suite->programs[suite->count++];
    memset(program, 0, sizeof *program);
    begin(program, &suite->random);
    return program;
}

/* Ends a program by exit with 0. */
void finish(struct program *program)
{
    put(program, writes(SETUP, RDI), "mov edi, 0");
    put(program, writes(SETUP, RAX), "mov eax, 60");
    put(program, noted(SETUP, VALUE_EXIT), "syscall");
}
