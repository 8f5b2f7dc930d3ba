/* Runs a static program of one thread in Unicorn up to its first kernel call, and prints RIP and RSP before each
   instruction. Without a program it prints the library's version.
   Usage: unicorn [PROGRAM] > OUTPUT */
#include <elf.h>
#include <stdio.h>
#include <unicorn/unicorn.h>

#define PAGE 4096UL
#define STACK 0x7fff0000UL
#define STACK_BYTES (16 * PAGE)

static char file[1 << 20];

static void tell(uc_engine *engine, uint64_t address, uint32_t size, void *data)
{
    uint64_t rsp;

    (void)size, (void)data;
    uc_reg_read(engine, UC_X86_REG_RSP, &rsp);
    printf("%016lx %016lx\n", address, rsp);
}

static void stop(uc_engine *engine, void *data)
{
    (void)data;
    uc_emu_stop(engine);
}

/* The pages of a segment, and its bytes; the files that come here lie in `file` as a whole. */
static uc_err load(uc_engine *engine, const Elf64_Phdr *segment)
{
    uint64_t first = segment->p_vaddr & -PAGE;
    uint64_t end = (segment->p_vaddr + segment->p_memsz + PAGE - 1) & -PAGE;
    uc_err error = uc_mem_map(engine, first, end - first, UC_PROT_ALL);

    if (error)
        return error;
    return uc_mem_write(engine, segment->p_vaddr, file + segment->p_offset, segment->p_filesz);
}

static uc_err start(uc_engine *engine)
{
    const Elf64_Ehdr *header = (const Elf64_Ehdr *)file;
    const Elf64_Phdr *segments = (const Elf64_Phdr *)(file + header->e_phoff);
    uint64_t rsp = STACK + STACK_BYTES - 64;
    uc_hook hook;
    uc_err error = uc_mem_map(engine, STACK, STACK_BYTES, UC_PROT_READ | UC_PROT_WRITE);

    for (int place = 0; !error && place < header->e_phnum; place++)
        if (segments[place].p_type == PT_LOAD)
            error = load(engine, segments + place);
    if (!error)
        error = uc_reg_write(engine, UC_X86_REG_RSP, &rsp);
    if (!error)
        error = uc_hook_add(engine, &hook, UC_HOOK_CODE, tell, NULL, 1, 0);
    if (!error)
        error = uc_hook_add(engine, &hook, UC_HOOK_INSN, stop, NULL, 1, 0, UC_X86_INS_SYSCALL);
    return error ? error : uc_emu_start(engine, header->e_entry, 0, 0, 0);
}

int main(int count, char **words)
{
    unsigned int version = uc_version(NULL, NULL);
    uc_engine *engine;
    uc_err error;
    FILE *program;

    if (count < 2)
        return printf("%u.%u.%u\n", version >> 24, version >> 16 & 255, version >> 8 & 255) < 0;
    program = fopen(words[1], "rb");
    if (!program || fread(file, 1, sizeof file, program) < sizeof(Elf64_Ehdr))
        return 1;
    error = uc_open(UC_ARCH_X86, UC_MODE_64, &engine);
    if (!error)
        error = start(engine);
    if (error)
        fprintf(stderr, "unicorn: %s\n", uc_strerror(error));
    return error || fflush(stdout) != 0;
}
