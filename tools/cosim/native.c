/* Runs an image on the processor, one instruction at a time.
 *
 * The image and a main stack are mapped in this process where cetvm has them. A signal handler on a stack of its own
 * puts the start registers in place of this program's, with the trap flag set, so that the processor comes back to it
 * after each instruction of the image. At the end it puts this program's registers back. */
#define _GNU_SOURCE
#include "cosim.h"

#include <signal.h>
#include <stdio.h>
#include <stdlib.h>
#include <string.h>
#include <sys/mman.h>
#include <ucontext.h>

enum { TRAP_FLAG = 0x100, PAGE = 4096, HANDLER_STACK = 1 << 18 };

/* The places of the registers in a signal's context, in the order of their numbers. */
static const int places[REGISTERS] = {REG_RAX, REG_RCX, REG_RDX, REG_RBX, REG_RSP, REG_RBP, REG_RSI, REG_RDI,
                                      REG_R8,  REG_R9,  REG_R10, REG_R11, REG_R12, REG_R13, REG_R14, REG_R15};

/* The run that is being made. */
static struct {
    const struct guest *guest;
    const struct program *program;
    struct trace trace;
    gregset_t own; /* this program's registers */
    bool running;
    uint64_t depth; /* of the shadow stack, in words */
} run;

uint64_t undefined_flags(const struct note *note, uint64_t rcx)
{
    uint64_t count = (note->undefined == AFTER_SHIFT_CL ? rcx : (uint64_t)note->number) & (note->wide ? 63 : 31);
    switch (note->undefined) {
    case AFTER_IMUL:
        return ZF | SF | PF;
    case AFTER_SHIFT:
    case AFTER_SHIFT_CL:
        return count > 1 ? OF : 0;
    default:
        return 0;
    }
}

/* The number of the instruction that begins at an address, or the count of all where none does. */
static size_t note_of(uint64_t rip)
{
    uint64_t place = rip - TEXT;
    uint32_t number = place < run.guest->text_size ? run.guest->note_at[place] : 0;
    return number && number <= run.program->count ? number - 1 : run.program->count;
}

static uint64_t word_at(uint64_t address)
{
    uint64_t word;
    memcpy(&word, (const void *)address, sizeof word);
    return word;
}

static uint64_t address_of(const struct memory *memory, const uint64_t *registers)
{
    uint64_t address = memory->slot >= 0 ? run.guest->data + 8 * (uint64_t)memory->slot : (uint64_t)memory->disp;
    if (memory->base != NONE)
        address += registers[memory->base];
    if (memory->index != NONE)
        address += registers[memory->index] * (uint64_t)memory->scale;
    return address;
}

/* Notes what stands before an instruction. Answers false at the end of the program, and where nothing can be run. */
static bool begin_step(const greg_t *registers)
{
    struct trace *trace = &run.trace;
    size_t number = note_of((uint64_t)registers[REG_RIP]);
    const struct note *note = &run.program->notes[number];
    trace->ended = number < run.program->count && note->value == VALUE_EXIT;
    if (trace->ended || number == run.program->count || trace->count == trace->most)
        return false;
    struct step *step = &trace->steps[trace->count];
    step->note = number;
    step->rip = (uint64_t)registers[REG_RIP];
    step->flags = (uint64_t)registers[REG_EFL] & FLAGS;
    for (int reg = 0; reg < REGISTERS; reg++)
        step->registers[reg] = (uint64_t)registers[places[reg]];
    step->found = note->memory.there ? word_at(address_of(&note->memory, step->registers)) : 0;
    return true;
}

static uint64_t value_after(const struct step *step, const struct note *note, const greg_t *registers)
{
    switch (note->value) {
    case VALUE_REGISTER:
        return (uint64_t)registers[places[note->reg]];
    case VALUE_STORED:
        return word_at(address_of(&note->memory, step->registers));
    case VALUE_FOUND:
        return step->found;
    case VALUE_PUSHED:
        return word_at((uint64_t)registers[REG_RSP]);
    case VALUE_TARGET:
    case VALUE_CALL:
    case VALUE_RETURN:
        return (uint64_t)registers[REG_RIP];
    default:
        return 0;
    }
}

/* Whether a call is relative and goes to the next instruction: such a call pushes nothing on the shadow stack. */
static bool goes_nowhere(uint64_t rip)
{
    static const uint8_t call[5] = {0xe8, 0, 0, 0, 0};
    return !memcmp((const void *)rip, call, sizeof call);
}

/* Notes what an instruction did, and gives the flags that it left undefined the values that cetvm has. */
static void end_step(greg_t *registers)
{
    struct step *step = &run.trace.steps[run.trace.count++];
    const struct note *note = &run.program->notes[step->note];
    uint64_t undefined = undefined_flags(note, step->registers[RCX]);
    if (note->value == VALUE_CALL && !goes_nowhere(step->rip))
        run.depth++;
    if (note->value == VALUE_RETURN)
        run.depth--;
    registers[REG_EFL] &= ~(greg_t)undefined;
    step->value = value_after(step, note, registers);
    step->flags_after = (uint64_t)registers[REG_EFL] & FLAGS;
    step->rip_after = (uint64_t)registers[REG_RIP];
    step->ssp_after = START_SSP - 8 * run.depth;
}

static void begin_run(greg_t *registers)
{
    memcpy(run.own, registers, sizeof run.own);
    for (int reg = 0; reg < REGISTERS; reg++)
        registers[places[reg]] = 0;
    registers[REG_RSP] = START_RSP;
    registers[REG_RIP] = (greg_t)run.guest->entry;
    registers[REG_EFL] = TRAP_FLAG | ONE;
    run.running = true;
}

static void end_run(greg_t *registers)
{
    memcpy(registers, run.own, sizeof run.own);
    run.running = false;
}

/* Handles the trap after an instruction, and the first one, which `traced` makes. */
static void on_trap(int signal, siginfo_t *information, void *context)
{
    greg_t *registers = ((ucontext_t *)context)->uc_mcontext.gregs;
    (void)signal;
    (void)information;
    if (run.running)
        end_step(registers);
    else
        begin_run(registers);
    if (!begin_step(registers))
        end_run(registers);
}

/* Ends the run where an instruction of the image faults, and this program where it faults itself. */
static void on_fault(int signal, siginfo_t *information, void *context)
{
    (void)information;
    if (!run.running)
        _Exit(2);
    run.trace.signal = signal;
    end_run(((ucontext_t *)context)->uc_mcontext.gregs);
    sigemptyset(&((ucontext_t *)context)->uc_sigmask);
}

static void handle(int signal, void (*handler)(int, siginfo_t *, void *))
{
    struct sigaction action = {.sa_sigaction = handler, .sa_flags = SA_SIGINFO | SA_ONSTACK};
    if (sigaction(signal, &action, NULL))
        fail("no handler of signals");
}

static void handle_signals(void)
{
    static const int faults[] = {SIGSEGV, SIGILL, SIGBUS, SIGFPE};
    static bool handled;
    if (handled)
        return;
    stack_t stack = {.ss_sp = grown(NULL, HANDLER_STACK), .ss_size = HANDLER_STACK};
    if (sigaltstack(&stack, NULL))
        fail("no stack for handlers of signals");
    handle(SIGTRAP, on_trap);
    for (size_t place = 0; place < sizeof faults / sizeof *faults; place++)
        handle(faults[place], on_fault);
    handled = true;
}

static void map(uint64_t address, size_t size, const uint8_t *bytes, size_t count, int rights)
{
    void *place = (void *)address;
    int flags = MAP_PRIVATE | MAP_ANONYMOUS | MAP_FIXED_NOREPLACE;
    if (mmap(place, size, PROT_READ | PROT_WRITE, flags, -1, 0) != place)
        fail("no memory at %p", place);
    if (count)
        memcpy(place, bytes, count);
    if (mprotect(place, size, rights))
        fail("no rights for memory at %p", place);
}

/* Runs an image on the processor up to the service that ends it, for at most as many steps as it has instructions. */
struct trace traced(const struct guest *guest, const struct program *program)
{
    size_t text = (guest->data - TEXT), data = (guest->data_size + PAGE - 1) / PAGE * PAGE;
    memset(&run, 0, sizeof run);
    run.guest = guest;
    run.program = program;
    run.trace.most = program->count;
    run.trace.steps = grown(NULL, program->count * sizeof *run.trace.steps);
    map(TEXT, text, guest->image + PAGE, guest->text_size, PROT_READ | PROT_EXEC);
    map(guest->data, data, guest->image + PAGE + text, guest->data_size, PROT_READ | PROT_WRITE);
    map(STACK, STACK_END - (size_t)STACK, NULL, 0, PROT_READ | PROT_WRITE);
    handle_signals();
    __asm__ volatile("int3" ::: "memory");
    munmap((void *)TEXT, text);
    munmap((void *)guest->data, data);
    munmap((void *)STACK, STACK_END - (size_t)STACK);
    return run.trace;
}
