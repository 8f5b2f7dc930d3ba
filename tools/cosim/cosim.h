/* Compares cetvm with the processor that this runs on. README.md says how. */
#ifndef COSIM_H
#define COSIM_H

#include <stdatomic.h>
#include <stdbool.h>
#include <stddef.h>
#include <stdint.h>

/* The flags that cetvm has, as bits of RFLAGS. Bit 1 is always set. */
enum { CF = 1, ONE = 2, PF = 4, ZF = 0x40, SF = 0x80, OF = 0x800, FLAGS = CF | PF | ZF | SF | OF };

enum { RAX, RCX, RDX, RBX, RSP, RBP, RSI, RDI, R8, R9, R10, R11, R12, R13, R14, R15, NONE };

enum { REGISTERS = 16, CONDITIONS = 16, SETTINGS = 20, SCALES = 4 };

enum {
    TEXT = 0x401000,    /* where an image's text begins */
    STACK = 0x7ffc0000, /* the main stack */
    STACK_END = 0x80000000,
    START_RSP = 0x7fffffc0,
    SCRATCH = 0x7ffd0000, /* words of the main stack that programs use as memory */
    SCRATCH_WORDS = 64,
    MOST_STEPS = 95000, /* of one program; cetvm stops at 100,000 */
};

#define START_SSP UINT64_C(0x200009000)

/* What a case is counted under. */
enum group {
    SETUP,
    ALU,
    TEST,
    IMUL,
    INC_DEC,
    NOT_NEG,
    SHIFTS,
    CMOV,
    MOV,
    MOVABS,
    MOVZX,
    MOVSXD,
    LEA,
    ADDRESSING,
    XCHG,
    XADD,
    CMPXCHG,
    NOPS,
    CARRY,
    PUSH,
    POP,
    LEAVE,
    JUMPS,
    CALLS,
    SPELLINGS,
    RANDOM,
    GROUPS
};

/* A memory operand: the base, the index times the scale, and `disp` or, where there is one, the address of word `slot`
 * of the data. */
struct memory {
    bool there;                /* false for no operand */
    int8_t base, index, scale; /* NONE where there is no such register */
    bool rip;                  /* a slot is written relative to RIP */
    int16_t slot;              /* -1 for none */
    int64_t disp;
};

/* The value that an instruction's record has. */
enum value {
    VALUE_ZERO,     /* none is written: 0 */
    VALUE_REGISTER, /* the whole register afterwards */
    VALUE_STORED,   /* the word at the memory operand afterwards */
    VALUE_FOUND,    /* the word at the memory operand before */
    VALUE_PUSHED,   /* the word at RSP afterwards */
    VALUE_TARGET,   /* RIP afterwards */
    VALUE_CALL,     /* RIP afterwards, in a record of a call */
    VALUE_RETURN,   /* RIP afterwards, in a record of a return */
    VALUE_EXIT,     /* the end of the program, which the processor doesn't run */
};

/* The flags that cetvm makes 0: those that the manual leaves undefined, and SF after IMUL by its own rule. */
enum undefined {
    DEFINED,
    AFTER_IMUL,     /* ZF, SF and PF */
    AFTER_SHIFT,    /* OF, where the count is above 1 */
    AFTER_SHIFT_CL, /* the same, the count being in CL */
};

/* What is known of one instruction of a program. */
struct note {
    enum group group;
    enum value value;
    enum undefined undefined;
    int16_t reg;          /* of VALUE_REGISTER */
    int16_t number;       /* of AFTER_SHIFT the count; in CMOV the condition */
    bool wide;            /* 64 bits */
    struct memory memory; /* whose word is stored, found, or else shown with a difference */
};

/* A program in the language of cetvm's assembler, and a note for each of its instructions, in the order of the text. */
struct program {
    char *text;
    size_t length, room;
    struct note *notes;
    size_t count, notes_room;
    int labels;
};

struct suite {
    struct program *programs;
    size_t count, room;
    uint64_t random; /* the state of the random numbers */
};

/* One instruction as the processor ran it. */
struct step {
    uint64_t rip, flags, registers[REGISTERS], found; /* before; `found` is what is at the memory operand, or 0 */
    size_t note;
    uint64_t value, rip_after, flags_after, ssp_after;
};

struct trace {
    struct step *steps;
    size_t count, most;
    bool ended; /* at the program's end */
    int signal; /* that ended it before, or 0 */
};

/* One record of cetvm's report. */
struct record {
    char name[12];
    uint64_t rip, code, a, b;
};

/* An image of cetvm's assembler, its listing and its report. */
struct guest {
    uint8_t *image;
    size_t size;
    uint64_t entry, text_size, data, data_size;
    uint32_t *note_at; /* for each byte of the text the number, from 1, of the instruction that begins there, or 0 */
    char *listing, **lines;
    size_t line_count;
    struct record *records;
    size_t record_count;
    bool exited; /* the process ended by exit with 0 */
};

/* What was compared. */
struct tally {
    uint64_t cases[GROUPS], steps, images;
    uint32_t settings[CONDITIONS]; /* the settings of flags, as sets of them, under which each condition was tried */
    bool done;
};

/* What the workers share. */
struct shared {
    atomic_uint differences;
    struct tally tallies[];
};

/* words.c */
_Noreturn void fail(const char *format, ...) __attribute__((format(printf, 1, 2)));
void *grown(void *block, size_t size);
uint64_t random_word(uint64_t *state);
int random_below(uint64_t *state, int bound);
const char *group_name(enum group group);
const char *register_name(int reg, bool wide);
char *number_text(char *to, int64_t number);
extern const char *const condition_names[CONDITIONS];
extern const uint64_t edges[];
extern const int edge_count;
extern const int32_t immediates[];
extern const int immediate_count;

/* program.c */
struct memory at_slot(int slot);
struct memory at_word(int word);
struct memory at_register(int base, int64_t disp);
char *memory_text(char *to, struct memory memory);
struct note reads(enum group group);
struct note writes(enum group group, int reg);
struct note stores(enum group group, struct memory memory);
struct note finds(enum group group, struct memory memory);
struct note noted(enum group group, enum value value);
struct note from(struct note note, struct memory memory);
struct program *reserve(struct suite *suite, size_t steps);
void put(struct program *program, struct note note, const char *format, ...) __attribute__((format(printf, 3, 4)));
void put_label(struct program *program, int label);
void put_pointer(struct program *program, int label);
void set(struct program *program, int reg, uint64_t value);
void set_to_label(struct program *program, int reg, int label);
void show(struct program *program, int reg);
void set_carry(struct program *program, bool carry);
void set_flags(struct program *program, int setting);
void finish(struct program *program);

/* arithmetic.c, moves.c, flow.c, spellings.c, random.c */
void arithmetic_cases(struct suite *suite);
void move_cases(struct suite *suite);
void flow_cases(struct suite *suite);
void spelling_cases(struct suite *suite);
void random_cases(struct suite *suite, int count);

/* guest.c */
struct guest guest_of(const char *cetvm, const char *folder, size_t number, const struct program *program);
void drop_guest(struct guest *guest);

/* native.c */
uint64_t undefined_flags(const struct note *note, uint64_t rcx);
struct trace traced(const struct guest *guest, const struct program *program);

/* compare.c */
void compare(const struct guest *guest, const struct program *program, const struct trace *trace, struct tally *tally,
             atomic_uint *differences);

#endif
