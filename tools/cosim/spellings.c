/* Cases of the spellings that the assembler doesn't write, as bytes. */
#include "cosim.h"

/* Adds an instruction by its bytes. */
static void put_bytes(struct program *program, struct note note, const char *bytes)
{
    put(program, note, ".byte %s", bytes);
}

static void set_operands(struct program *program, int setting)
{
    set(program, RAX, edges[setting % edge_count]);
    set(program, RBX, edges[(setting * 7 + 3) % edge_count]);
    set(program, RCX, edges[(setting * 4 + 1) % edge_count]);
    set(program, R8, edges[(setting * 2 + 5) % edge_count]);
    set_flags(program, setting);
}

/* The two spellings of an operation on registers, those for rax, and the long form of a small number. */
static void operations(struct program *program, int operation, int setting)
{
    int first = 8 * operation;
    struct note rax = operation == 7 ? reads(SPELLINGS) : writes(SPELLINGS, RAX);
    struct note r8 = operation == 7 ? reads(SPELLINGS) : writes(SPELLINGS, R8);
    set_operands(program, setting);
    put(program, rax, ".byte 0x%x, 0xc3", first + 3);                         /* eax, ebx */
    put(program, rax, ".byte 0x48, 0x%x, 0xc3", first + 3);                   /* rax, rbx */
    put(program, rax, ".byte 0x4a, 0x%x, 0xc3", first + 3);                   /* the same with REX.X */
    put(program, r8, ".byte 0x4c, 0x%x, 0xc3", first + 3);                    /* r8, rbx */
    put(program, rax, ".byte 0x40, 0x%x, 0xd8", first + 1);                   /* eax, ebx with an empty REX */
    put(program, rax, ".byte 0x%x, 0x78, 0x56, 0x34, 0x92", first + 5);       /* eax, 0x92345678 */
    put(program, rax, ".byte 0x48, 0x%x, 0x78, 0x56, 0x34, 0x92", first + 5); /* rax, -0x6dcba988 */
    put(program, rax, ".byte 0x4f, 0x%x, 0x78, 0x56, 0x34, 0x12", first + 5); /* the same with REX.R, X and B */
    put(program, rax, ".byte 0x48, 0x81, 0x%x, 5, 0, 0, 0", 0xc0 + first);    /* rax, 5 */
    put(program, rax, ".byte 0x4e, 0x83, 0x%x, 0xfb", 0xc0 + first);          /* rax, -5 with REX.R and X */
}

static void shifts_by_one(struct program *program, int field, int setting)
{
    int byte = 0xc0 + 8 * field;
    struct note of_cl = writes(SPELLINGS, RAX);
    of_cl.undefined = AFTER_SHIFT_CL;
    of_cl.wide = true;
    set_operands(program, setting);
    put(program, writes(SPELLINGS, RAX), ".byte 0xd1, 0x%x", byte);
    put(program, writes(SPELLINGS, RBX), ".byte 0x48, 0xd1, 0x%x", byte + 3);
    put(program, writes(SPELLINGS, R8), ".byte 0x49, 0xd1, 0x%x", byte);
    put(program, of_cl, ".byte 0x4e, 0xd3, 0x%x", byte); /* by CL, with REX.R and X */
}

/* Spellings of instructions that write rax. */
static const char *const of_rax[] = {
    "0x8b, 0xc3",                         /* mov eax, ebx */
    "0x48, 0x8b, 0xc3",                   /* mov rax, rbx */
    "0x49, 0x8b, 0xc0",                   /* mov rax, r8 */
    "0xc7, 0xc0, 1, 2, 3, 0x84",          /* mov eax, 0x84030201 */
    "0x46, 0xc7, 0xc0, 1, 2, 3, 4",       /* the same with REX.R and X */
    "0x4c, 0xc7, 0xc0, 1, 2, 3, 0x84",    /* mov rax, -0x7bfcfdff with REX.R */
    "0x40, 0xb8, 1, 2, 3, 0x84",          /* mov eax with an empty REX */
    "0x4e, 0xb8, 1, 2, 3, 4, 5, 6, 7, 8", /* movabs with REX.R and X */
    "0x48, 0x63, 0xc3",                   /* movsxd rax, ebx */
    "0x4a, 0x63, 0xc3",                   /* the same with REX.X */
    "0x0f, 0x44, 0xc3",                   /* cmove eax, ebx */
    "0x42, 0x0f, 0x49, 0xc3",             /* cmovns eax, ebx with REX.X */
    "0x4e, 0xff, 0xc0",                   /* inc rax with REX.R and X */
    "0x44, 0xff, 0xc8",                   /* dec eax with REX.R */
    "0x4c, 0xf7, 0xd0",                   /* not rax with REX.R */
    "0x46, 0xf7, 0xd8",                   /* neg eax with REX.R and X */
    "0x4a, 0x87, 0xd8",                   /* xchg rax, rbx with REX.X */
};

/* The same of loads, rsi being SCRATCH + 64 and rdi being 1: byte strings that end by the memory operand. */
static const char *const of_memory[] = {
    "0x48, 0x8b, 0x46, 0",                            /* [rsi] with one byte of displacement */
    "0x48, 0x8b, 0x86, 0, 0, 0, 0",                   /* with four */
    "0x48, 0x8b, 0x86, 8, 0, 0, 0",                   /* [rsi+8] with four */
    "0x48, 0x8b, 0x04, 0x26",                         /* [rsi] with a SIB byte */
    "0x48, 0x8b, 0x04, 0xe6",                         /* the same with scale 8 and no index */
    "0x48, 0x8b, 0x44, 0x66, 16",                     /* [rsi+16] with scale 2 and no index */
    "0x48, 0x8b, 0x84, 0xa6, 0xf8, 0xff, 0xff, 0xff", /* [rsi-8] with scale 4 and no index */
    "0x4a, 0x8b, 0x06",                               /* [rsi] with REX.X */
    "0x4a, 0x8b, 0x04, 0x26",                         /* [rsi+r12*1] */
    "0x48, 0x8b, 0x44, 0xfe, 0",                      /* [rsi+rdi*8] with one byte of displacement */
    "0x48, 0x8b, 0x84, 0xfe, 0, 0, 0, 0",             /* with four */
    "0x48, 0x8b, 0x04, 0x25, 0x40, 0, 0xfd, 0x7f",    /* [SCRATCH+64] */
    "0x49, 0x8b, 0x04, 0x25, 0x40, 0, 0xfd, 0x7f",    /* with REX.B, which is of no register */
    "0x48, 0x8b, 0x04, 0xa5, 0x40, 0, 0xfd, 0x7f",    /* with scale 4 and no index */
    "0x49, 0x8b, 0x04, 0xfd, 0x38, 0, 0xfd, 0x7f",    /* [rdi*8+SCRATCH+56] with REX.B */
    "0x0f, 0xb6, 0x06",                               /* movzx rax, byte [rsi] */
    "0x48, 0x0f, 0xb6, 0x46, 3",                      /* the same of [rsi+3], with REX.W */
    "0x40, 0x0f, 0xb6, 0x46, 1",                      /* with an empty REX */
    "0x48, 0x03, 0x46, 0",                            /* add rax, [rsi] */
    "0x48, 0x63, 0x46, 4",                            /* movsxd rax, [rsi+4] */
    "0x48, 0x8d, 0x46, 0",                            /* lea rax, [rsi] */
    "0x49, 0x8d, 0x05, 0x10, 0, 0, 0",                /* lea rax, [rip+16] with REX.B */
};

/* Instructions that do nothing. */
static const char *const nothing[] = {
    "0x66, 0x90",
    "0x0f, 0x1f, 0x00",
    "0x0f, 0x1f, 0xc0",
    "0x0f, 0x1f, 0x40, 0",
    "0x0f, 0x1f, 0x44, 0, 0",
    "0x66, 0x0f, 0x1f, 0x44, 0, 0",
    "0x0f, 0x1f, 0x80, 0, 0, 0, 0",
    "0x0f, 0x1f, 0x84, 0, 0, 0, 0, 0",
    "0x66, 0x0f, 0x1f, 0x84, 0, 0, 0, 0, 0",
    "0x66, 0x2e, 0x0f, 0x1f, 0x84, 0, 0, 0, 0, 0",
    "0x66, 0x66, 0x2e, 0x0f, 0x1f, 0x84, 0, 0, 0, 0, 0",
};

enum {
    OF_RAX = sizeof of_rax / sizeof *of_rax,
    OF_MEMORY = sizeof of_memory / sizeof *of_memory,
    NOTHING = sizeof nothing / sizeof *nothing,
};

static void tables(struct program *program, int setting)
{
    for (int place = 0; place < OF_RAX; place++) {
        set_operands(program, setting);
        put_bytes(program, writes(SPELLINGS, RAX), of_rax[place]);
        show(program, RBX);
    }
    set(program, RSI, SCRATCH + 64);
    set(program, RDI, 1);
    set(program, R12, (uint64_t)-16);
    for (int place = 0; place < OF_MEMORY; place++)
        put_bytes(program, writes(SPELLINGS, RAX), of_memory[place]);
    for (int place = 0; place < NOTHING; place++)
        put_bytes(program, reads(SPELLINGS), nothing[place]);
}

static void tests_and_stack(struct program *program, int setting)
{
    set_operands(program, setting);
    set(program, RSP, 0x7fffa000);
    put_bytes(program, reads(SPELLINGS), "0xa9, 1, 2, 3, 0x84");             /* test eax */
    put_bytes(program, reads(SPELLINGS), "0x48, 0xa9, 1, 2, 3, 0x84");       /* test rax */
    put_bytes(program, reads(SPELLINGS), "0x49, 0xa9, 1, 2, 3, 4");          /* with REX.B */
    put_bytes(program, reads(SPELLINGS), "0x4e, 0xf7, 0xc0, 1, 2, 3, 0x84"); /* with REX.R and X */
    put_bytes(program, reads(SPELLINGS), "0x4a, 0x85, 0xd8");                /* test rax, rbx with REX.X */
    put_bytes(program, noted(SPELLINGS, VALUE_PUSHED), "0x68, 5, 0, 0, 0");
    put_bytes(program, noted(SPELLINGS, VALUE_PUSHED), "0x48, 0x53"); /* push rbx with REX.W */
    put_bytes(program, noted(SPELLINGS, VALUE_PUSHED), "0x40, 0x50");
    put_bytes(program, noted(SPELLINGS, VALUE_PUSHED), "0x4c, 0xff, 0x74, 0x24, 8"); /* push [rsp+8] with REX.W and R */
    put_bytes(program, writes(SPELLINGS, R8), "0x4f, 0x58");
    put_bytes(program, writes(SPELLINGS, RAX), "0x40, 0x58");
    put_bytes(program, writes(SPELLINGS, RBX), "0x4e, 0x5b");
    show(program, RSP);
}

/* Jumps to the next instruction with REX prefixes, and with displacements of four bytes that fit in one. */
static void jumps(struct program *program)
{
    int label = program->labels++;
    set_to_label(program, RAX, label);
    put_bytes(program, noted(SPELLINGS, VALUE_TARGET), "0x4e, 0xff, 0xe0"); /* jmp rax with REX.W, R and X */
    put(program, writes(SETUP, RBX), "mov ebx, 1");
    put_label(program, label);
    put_bytes(program, noted(SPELLINGS, VALUE_TARGET), "0xe9, 0, 0, 0, 0");
    put_bytes(program, noted(SPELLINGS, VALUE_TARGET), "0xeb, 0");
    put_bytes(program, noted(SPELLINGS, VALUE_TARGET), "0x70, 0");
    put_bytes(program, noted(SPELLINGS, VALUE_TARGET), "0x0f, 0x81, 0, 0, 0, 0");
}

void spelling_cases(struct suite *suite)
{
    for (int setting = 0; setting < SETTINGS; setting++) {
        struct program *program = reserve(suite, 600);
        for (int operation = 0; operation < 8; operation++)
            operations(program, operation, setting);
        shifts_by_one(program, 4, setting);
        shifts_by_one(program, 5, setting);
        shifts_by_one(program, 7, setting);
        tables(program, setting);
        tests_and_stack(program, setting);
        jumps(program);
    }
}
