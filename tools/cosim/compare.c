/* Compares what the processor did with cetvm's records, and prints what differs. */
#include "cosim.h"

#include <inttypes.h>
#include <stdio.h>
#include <string.h>

enum { MOST_SHOWN = 20, MOST_LINE = 1024 };

/* Prints a difference, if not too many were printed before, as one piece. */
static void print_difference(atomic_uint *differences, const char *text)
{
    if (atomic_fetch_add(differences, 1) < MOST_SHOWN) {
        printf("cosim: %s\n", text);
        fflush(stdout);
    }
}

static const char *name_of(enum value value)
{
    switch (value) {
    case VALUE_CALL:
        return "call";
    case VALUE_RETURN:
        return "ret";
    case VALUE_EXIT:
        return "sys";
    default:
        return "step";
    }
}

/* Whether the text has the register's name as a word of its own. */
static bool names(const char *text, const char *reg)
{
    size_t length = strlen(reg);
    for (const char *at = strstr(text, reg); at; at = strstr(at + 1, reg))
        if (!strchr("abcdefghijklmnopqrstuvwxyz0123456789", at[length]) || !at[length])
            return true;
    return false;
}

/* Writes the registers that a listing's line names, the memory and the flags, as they were before. */
static char *put_inputs(char *to, const struct step *step, const struct note *note, const char *line)
{
    for (int reg = 0; reg < REGISTERS; reg++) {
        bool named = names(line, register_name(reg, true)) || names(line, register_name(reg, false)) ||
                     (reg == RCX && names(line, "cl"));
        if (named)
            to += sprintf(to, " %s=%" PRIx64, register_name(reg, true), step->registers[reg]);
    }
    if (note->memory.there)
        to += sprintf(to, " memory=%" PRIx64, step->found);
    return to + sprintf(to, " flags=%" PRIx64, step->flags | ONE);
}

static struct record expected(const struct step *step, const struct note *note)
{
    bool follows = note->value == VALUE_CALL || note->value == VALUE_RETURN;
    struct record record = {
        .rip = step->rip, .a = step->value, .b = follows ? step->ssp_after : step->flags_after | ONE};
    strcpy(record.name, name_of(note->value));
    return record;
}

static bool same(const struct record *one, const struct record *other)
{
    return !strcmp(one->name, other->name) && one->rip == other->rip && one->code == other->code &&
           one->a == other->a && one->b == other->b;
}

static char *put_record(char *to, const struct record *record)
{
    return to + sprintf(to, "%s %" PRIx64 " %" PRIu64 " %" PRIx64 " %" PRIx64, record->name, record->rip, record->code,
                        record->a, record->b);
}

static void show_difference(const struct step *step, const struct note *note, const char *line,
                            const struct record *found, atomic_uint *differences)
{
    char text[MOST_LINE], *end = text;
    struct record wanted = expected(step, note);
    end += sprintf(end, "%.100s, with", line);
    end = put_inputs(end, step, note, line);
    end += sprintf(end, "\n    processor ");
    end = put_record(end, &wanted);
    end += sprintf(end, "\n    cetvm     ");
    if (found)
        put_record(end, found);
    else
        sprintf(end, "no record");
    print_difference(differences, text);
}

/* A setting of the flags as a number from 0 to 31. */
static int setting_of(uint64_t flags)
{
    static const uint64_t bits[] = {CF, PF, ZF, SF, OF};
    int setting = 0;
    for (int bit = 0; bit < 5; bit++)
        setting |= (flags & bits[bit]) ? 1 << bit : 0;
    return setting;
}

static void count(const struct note *note, const struct step *step, struct tally *tally)
{
    tally->steps++;
    tally->cases[note->group]++;
    if (note->group == CMOV)
        tally->settings[note->number] |= UINT32_C(1) << setting_of(step->flags);
}

/* Compares the ends: the processor is to come to the program's end, where cetvm exits. */
static void compare_ends(const struct guest *guest, const struct trace *trace, atomic_uint *differences)
{
    char text[MOST_LINE];
    if (!trace->ended)
        snprintf(text, sizeof text, "the processor ends after %zu instructions, by signal %d", trace->count,
                 trace->signal);
    else if (!guest->exited || guest->record_count != trace->count + 1)
        snprintf(text, sizeof text, "cetvm has %zu records where the processor has %zu", guest->record_count,
                 trace->count + 1);
    else
        return;
    print_difference(differences, text);
}

/* Compares one program's records. Where RIP differs there is no sense in going on. */
void compare(const struct guest *guest, const struct program *program, const struct trace *trace, struct tally *tally,
             atomic_uint *differences)
{
    if (guest->line_count != program->count)
        fail("a listing has %zu instructions where the program has %zu", guest->line_count, program->count);
    for (size_t place = 0; place < trace->count; place++) {
        const struct step *step = &trace->steps[place];
        const struct note *note = &program->notes[step->note];
        const struct record *record = place < guest->record_count ? &guest->records[place] : NULL;
        struct record wanted = expected(step, note);
        count(note, step, tally);
        if (!record || !same(&wanted, record))
            show_difference(step, note, guest->lines[step->note], record, differences);
        if (!record || record->rip != step->rip)
            break;
    }
    compare_ends(guest, trace, differences);
    tally->images++;
}
