"""Random programs with up to four threads, signals and switches between shadow stacks, and words for their runs."""
import random

THREADS, TOKENS, FUNCTIONS = 4, 3, 3
SIGNALS = (4, 10, 10, 10, 11, 12, 12, 12, 31)
# Signals of faults.
FAULTS = (11, 4)
CLONE_FLAGS = 0x10900
REGISTERS = ("rax", "rcx", "rdx", "rdi", "rsi", "r8", "r9", "r10")
NARROW = ("eax", "ecx", "edx", "edi", "esi", "r8d", "r9d", "r10d")
CONDITIONS = ("o", "no", "b", "ae", "e", "ne", "be", "a", "s", "ns", "p", "np", "l", "ge", "le", "g")


class Writer:
    """Source lines, with labels that are used once."""

    def __init__(self, pick):
        self.pick, self.lines, self.labels = pick, [], 0

    def add(self, *lines):
        self.lines += lines

    def label(self):
        self.labels += 1
        return f"l{self.labels}"

    def service(self, number, *arguments):
        for register, value in zip(("rdi", "rsi", "rdx", "r10"), arguments):
            name = isinstance(value, str)
            self.add(f"lea {register}, [rip+{value}]" if name else f"mov {register}, {value}")
        self.add(f"mov eax, {number}", "syscall")


def arithmetic(w):
    pick = w.pick
    names = pick.choice((REGISTERS, NARROW))
    left, right, number = pick.choice(names), pick.choice(names), pick.choice((0, 1, -1, 255, -200, 0x7FFFFFFF))
    two = pick.choice(("add", "or", "adc", "sbb", "and", "sub", "xor", "cmp", "test", "mov"))
    load = f"test [rip+shared], {left}" if two == "test" else f"{two} {left}, [rip+shared]"
    w.add(pick.choice((
        f"{two} {left}, {right}", f"{two} {left}, {number}", load, f"imul {left}, {right}",
        f"{pick.choice(('inc', 'dec', 'not', 'neg'))} {left}", f"lea {left}, [rax+rcx*4-{pick.randrange(300)}]",
        f"{pick.choice(('shl', 'shr', 'sar'))} {left}, {pick.choice(('cl', 0, 1, 5, 31, 33, 63))}",
        f"cmov{pick.choice(CONDITIONS)} {left}, {right}", f"movzx {pick.choice(REGISTERS)}, byte [rip+shared]",
        f"movsxd {pick.choice(REGISTERS)}, {pick.choice(NARROW)}",
        f"xchg {pick.choice(REGISTERS)}, {pick.choice(REGISTERS)}",
        "stc", "clc", "endbr64", "pause", f"cmp dword [rip+shared], {number}",
        f"mov {pick.choice(REGISTERS)}, {pick.getrandbits(64)}",
    )))


def jump(w):
    to = w.label()
    w.add(f"j{w.pick.choice(CONDITIONS)} {w.pick.choice(('', 'short '))}{to}")
    w.pick.choice((stack_words, shared_word))(w)
    w.add(f"{to}:")


def stack_words(w):
    w.add(f"push {w.pick.choice(REGISTERS)}", f"pop {w.pick.choice(REGISTERS)}")


def call(w):
    w.add(f"call f{w.pick.randrange(FUNCTIONS)}")


def call_by_register(w):
    w.add(f"lea r11, [rip+f{w.pick.randrange(FUNCTIONS)}]", "call r11")


def shared_word(w):
    kind = w.pick.randrange(4)
    if kind == 0:
        w.add("lock xadd [rip+shared], rcx")
    elif kind == 1:
        w.add("mov rax, [rip+shared]", "lea rdx, [rax+1]", "lock cmpxchg [rip+shared], rdx")
    elif kind == 2:
        w.add("xchg [rip+shared], r8")
    else:
        w.add("mov r9, [rip+shared]", "inc r9", "mov [rip+shared], r9")


def loop(w):
    top = w.label()
    w.add(f"mov ebp, {w.pick.randint(1, 4)}", f"{top}:", "nop", "dec rbp", f"jne {top}")


def switch(w):
    """Takes a token's address out of its place, so that no other thread goes there, or leaves it."""
    place, out = f"token{w.pick.randrange(TOKENS)}", w.label()
    w.add("xor r12d, r12d", f"xchg [rip+{place}], r12" if w.pick.random() < 0.7 else f"mov r12, [rip+{place}]")
    w.add("test r12, r12", f"je {out}", "rdsspq r13", "rstorssp [r12]", "saveprevssp")
    for _ in range(w.pick.randrange(3)):
        w.pick.choice((call, stack_words, arithmetic, shared_word))(w)
    if w.pick.random() < 0.85:
        w.add("rstorssp [r13-8]", "saveprevssp", f"mov [rip+{place}], r12")
    w.add(f"{out}:")


def hand_over(w):
    """Leaves the own stack parked behind a call, for whoever comes to its token."""
    place, out = f"token{w.pick.randrange(TOKENS)}", w.label()
    w.add("xor r12d, r12d", f"xchg [rip+{place}], r12", "test r12, r12", f"je {out}", "rdsspq r13", "rstorssp [r12]",
          "saveprevssp", "sub r13, 8", f"mov [rip+{place}], r13", f"{out}:")


def send(w):
    w.service(234, 1000, 1000 + w.pick.randrange(THREADS), w.pick.choice(SIGNALS))


def mask(w):
    w.service(14, w.pick.randrange(4), w.pick.choice(("mask0", "mask1", 0)), w.pick.choice(("old", 0)), 8)


def action(w):
    w.service(13, w.pick.choice(SIGNALS), f"action{w.pick.randrange(4)}", w.pick.choice(("old", 0)), 8)


def write(w):
    w.service(1, w.pick.choice((1, 2, 3)), w.pick.choice(("old", "mask0", 0x402000, 0x10)), w.pick.randrange(12))


def memory(w):
    kind = w.pick.randrange(4)
    if kind == 0:
        w.service(9, 0, w.pick.choice((1, 4096, 9000)), 3, 0x22)
        w.add("mov [rax], rax", "mov rcx, [rax]")
    elif kind == 1:
        w.service(453, 0, w.pick.choice((8, 32, 4096, 5000)), w.pick.randrange(2))
    elif kind == 2:
        w.service(11, 0x100000000 + 4096 * w.pick.randrange(3), 4096)
    else:
        w.service(11, 0x200001000 + 4096 * w.pick.randrange(40), 4096)


def small_service(w):
    number, *arguments = w.pick.choice(((24,), (186,), (158, 0x5005, "old"), (158, 0x5001, 1), (202,), (56, 0, 0)))
    w.service(number, *arguments)


def raise_pointer(w):
    w.add(f"mov eax, {w.pick.choice((0, 0, 0, 1, 2))}", "incsspq rax")


def faulty(w):
    w.add(*w.pick.choice((("ud2",), ("mov rax, [0x7ffc0004]",), ("mov [0x401000], rax",), ("mov rax, [0x10]",),
                          ("saveprevssp",), ("ret",), ("rstorssp [rsp]",), ("push 0x401000", "ret"), ("setssbsy",),
                          ("rdsspq rax", "mov [rax-8], 0"), ("mov eax, 15", "syscall"))))


USUAL = (arithmetic, arithmetic, arithmetic, jump, stack_words, call, call, call_by_register, shared_word, loop, switch,
         switch, send, write, small_service)
SELDOM = (hand_over, mask, action, memory, raise_pointer, faulty)


def body(w, length):
    for _ in range(length):
        (w.pick.choice(SELDOM) if w.pick.random() < 0.15 else w.pick.choice(USUAL))(w)


def birth(w, child):
    """A thread that goes to its own body, where there is one yet to start."""
    w.service(56, CLONE_FLAGS, f"stack{child}")
    w.add("test rax, rax", f"je body{child}")


def functions(w):
    for number in range(FUNCTIONS):
        w.add(f"f{number}:")
        for _ in range(w.pick.randrange(3)):
            w.pick.choice((arithmetic, stack_words, shared_word))(w)
        if number + 1 < FUNCTIONS and w.pick.random() < 0.7:
            w.add(f"call f{w.pick.randrange(number + 1, FUNCTIONS)}")
        w.add("ret" if w.pick.random() < 0.97 else "ret 8")


def handlers(w):
    w.add("h0:", "ret")
    w.add("h1:", "mov rax, [rsi+168]", "mov rcx, [rsi+184]", "call f2", "ret")
    w.add("h2:", "lea rax, [rip+leave]", "mov [rsi+136], rax", "ret")
    w.add("h3:", *w.pick.choice((("mov rsp, [rsi+40]", "jmp leave"), ("mov [rsp], 0", "ret"),
                                 ("mov eax, 2", "incsspq rax", "mov rsp, [rsi+40]", "jmp leave"), ("jmp restorer",))))
    w.add("restorer:", "mov eax, 15", "syscall")
    w.add("leave:", "mov edi, 7", "mov eax, 60", "syscall")


def data(w):
    w.add(".data", "shared: .quad 0", "old: .zero 32", "mask0: .quad 0x200", "mask1: .quad 0xa00")
    for number in range(4):
        flags = 0x04000000 | w.pick.choice((0, 4, 0x40000000, 0x10000000))
        handler = w.pick.choice((f"h{number}", f"h{number}", f"h{number}", "1"))
        w.add(f"action{number}: .quad {handler}, {flags}, restorer, {w.pick.choice((0, 0x200, -1))}")
    w.add(*(f"token{number}: .quad 0" for number in range(TOKENS)))
    for number in range(THREADS):
        w.add(".zero 2048", f"stack{number}: .quad 0")


def source(pick):
    w = Writer(pick)
    threads = pick.randint(1, THREADS)
    w.add("_start:")
    for signal in (10, 12):
        if pick.random() < 0.85:
            w.service(13, signal, f"action{pick.randrange(4)}", 0, 8)
    for signal in FAULTS:
        if pick.random() < 0.7:
            w.service(13, signal, f"action{pick.choice((2, 2, 2, pick.randrange(4)))}", 0, 8)
    for number in range(TOKENS):
        size = pick.choice((32, 4096, 8192))
        w.service(453, 0, size, 1)
        w.add(f"lea rax, [rax+{size - 8}]", f"mov [rip+token{number}], rax")
    for child in range(1, threads):
        birth(w, child)
        body(w, pick.randrange(3))
    body(w, pick.randint(3, 25))
    w.service(pick.choice((60, 60, 231)), pick.randrange(400))
    for child in range(1, threads):
        w.add(f"body{child}:")
        body(w, pick.randint(3, 25))
        w.service(60, child)
    functions(w)
    handlers(w)
    data(w)
    return "\n".join(w.lines) + "\n"


def signals(pick):
    count = pick.randrange(6)
    return ",".join(f"{pick.randrange(THREADS)}:{pick.randrange(200)}:{pick.choice(SIGNALS)}" for _ in range(count))


def schedule(pick):
    return ",".join(f"{pick.randrange(THREADS + 1)}*{pick.randint(1, 40)}" for _ in range(pick.randrange(60)))


def words(pick):
    """Words for three runs: round robin, a list, a generator's numbers."""
    common = ["--limit", str(pick.choice((50, 400, 2000))), f"--procs={pick.randint(1, 8)}"]
    common.append(f"--signals={signals(pick)}")
    return (["run", *common], ["replay", *common, f"--schedule={schedule(pick)}"],
            ["replay", *common, "--mix", str(pick.getrandbits(64))])


def random_program(seed):
    pick = random.Random(seed)
    return source(pick), words(pick)
