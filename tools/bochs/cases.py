"""The table of cases: small programs, most of which end in a fault."""
from instructions import MASK, RAX, RBP, RBX, RCX, RDI, RDX, RSI, RSP, R11, at, do, encode, load_number
from model import AF, FIRST_REGION, KERNEL, MAP_SHADOW_STACK, SHADOW, STACK, TEXT, Machine, canonical

# A text is filled up with UD2, since the place `text` is a target of calls too.
SHORTEST = 128
UD2 = do("ud2")
NOP = do("nop")
NOT_CANONICAL = (0x800000000000, 0xFFFF7FFFFFFFFFF8, 0x8000000000000000)
# Values of RSP and of addresses, by what is there.
PLACES = {
    "main stack": 0x7FFFF000, "not aligned 1": 0x7FFFF001, "not aligned 4": 0x7FFFF004, "null": 0,
    "low end of the main stack": STACK[0], "high end of the main stack": STACK[1], "text": TEXT + 64,
    "image, absent": 0x500000, "shadow page": 0x200008F00, "guard page": 0x200000F00, "past the guard": 0x200009000,
    "kernel page": KERNEL + 64, "supervisor stack": KERNEL + 0x2800, "kernel, absent": KERNEL + 0x1800,
    "high": MASK - 7, "first not canonical": 0x800000000000, "last not canonical": 0xFFFF7FFFFFFFFFF8,
    "not canonical, not aligned": 0x900000000001, "first canonical above": KERNEL, "last canonical below": 0x7FFFFFFFFFF8,
}
# Sums of `add eax, number` that leave many flags.
FLAGS = ((0, 0), (0x7FFFFFFF, 1), (-0x80000000, -0x80000000), (-1, 1), (0x7FFFFFF0, 0x7FFFFFF0), (0xF, 1), (-1, -1),
         (0x40, 0x40), (-0x80000000, -1), (3, 0))


class Case:
    """A program, its start in cetvm, and the state `start` at which Bochs begins: after the part `before`, or where
    something was planted that no program leaves there. The text is cut to `length` bytes."""

    def __init__(self, name, body, before=(), limit=2000, auxiliary=False, planted=None, ssp=None, registers=None,
                 length=None):
        self.name, self.limit = name, limit
        self.instructions, self.text, self.end = lay_out(list(before) + list(body))
        self.text = self.text[:length]
        self.planted = bool(planted or registers or ssp is not None)
        self.start = Machine(self.text, self.instructions)
        self.records = []
        for _ in before:
            rip = self.start.rip
            self.records.append((rip, self.start.step()))
        self.start.words.update(planted or {})
        if ssp is not None:
            self.start.ssp = ssp
        for register, value in (registers or {}).items():
            self.start.registers[register] = value
        if auxiliary:
            self.start.flags |= AF

    def names(self):
        return {instruction.name for instruction in self.instructions.values()}


def lay_out(items):
    """Instructions by address, the bytes, and the end of the items given. A text among the items is a label; the number
    of a `call`, a `jmp` or a `mov` may name one."""
    labels, address, places = {}, TEXT, []
    for item in items:
        if isinstance(item, str):
            labels[item] = address
            continue
        places.append((address, item))
        address += len(encode(item._replace(number=0) if isinstance(item.number, str) else item))
    instructions, text = {}, b""
    for address, item in places:
        if isinstance(item.number, str):
            target = labels[item.number]
            item = item._replace(number=target - address - 5 if item.name in ("call", "jmp") else target)
        instructions[address] = item
        text += encode(item)
    end = TEXT + len(text)
    while len(text) < SHORTEST:
        item = UD2 if len(text) % 2 == 0 else NOP
        instructions[TEXT + len(text)] = item
        text += encode(item)
    return instructions, text, end


def region(size):
    """Asks for a shadow stack."""
    return [do("mov_number_32", RDI, number=0), do("mov_number_32", RSI, number=size),
            do("mov_number_32", RDX, number=1), do("mov_number_32", RAX, number=MAP_SHADOW_STACK), do("syscall")]


def regions(*sizes):
    """The instructions, and for each stack its start and its token's place."""
    before, places, drawn = [], [], 9
    for size in sizes:
        start = SHADOW + 4096 * (drawn + 1)
        drawn += (size + 4095 >> 12) + 1
        before += region(size)
        places.append(start + size - 8)
    return before, places


def flags(k):
    """Sets the flags, and RAX."""
    left, right = FLAGS[k % len(FLAGS)]
    return [do("mov_number_32", RAX, number=left), do("add_number", RAX, number=right)]


def calls(count):
    """Leaves calls open, without a change of the place in the text."""
    return [do("call", number=1), NOP] * count


def restore(place, register=RBX):
    return [load_number(register, place), do("rstorssp", memory=at(register))]


def every_stack_place():
    """Pushes, pops, calls and returns at each kind of stack address, with calls open and with none."""
    last = {
        "push": [do("push_register", RBX)], "push number": [do("push_number", number=-2)],
        "push rsp": [do("push_register", RSP)], "push memory": [do("push_memory", memory=at(RBX))], "pop": [do("pop", RCX)],
        "pop rsp": [do("pop", RSP)], "call": [do("call", number=1), NOP], "call next": [do("call", number=0)],
        "call register": [do("call_register", RBX)], "call memory": [do("call_memory", memory=at(RBX))],
        "ret": [do("ret")], "ret number": [do("ret_number", number=24)],
        "store": [do("mov_store", RCX, at(RSP, -8))], "load": [do("mov_load", RCX, at(RSP))],
    }
    for where, address in PLACES.items():
        for what, instructions in last.items():
            for depth in (0, 1):
                for offset in (0, 8):
                    before = calls(depth)
                    aims = [do("mov_number", RBX, number="end"), load_number(RSP, address + offset)]
                    body = [*aims, *instructions, UD2, "end", UD2]
                    yield Case(f"{what}, rsp {where} + {offset}, depth {depth}", body, before)


def every_memory_place():
    """Loads, stores and targets at each kind of address, and as the base rbp."""
    yield Case("setssbsy", [do("setssbsy")])
    for where, address in PLACES.items():
        for base in (RBX, RBP):
            for what in ("mov_load", "mov_store", "push_memory", "call_memory", "call_register", "wrssq", "wrussq",
                         "clrssbsy"):
                memory = None if what == "call_register" else at(base)
                alone = what.endswith("memory") or what == "clrssbsy"
                register = base if what == "call_register" else None if alone else RCX
                yield Case(f"{what} at {where}, base {base}", [load_number(base, address), do(what, register, memory), UD2],
                           flags(base))
    for bad in (0x800000000000, 0x7FFFF001, 0x500000):
        for stack in (0x800000000000, 0x7FFFF001, 0x500000, TEXT + 64):
            for what in ("call_memory", "push_memory"):
                yield Case(f"{what}: memory {bad:x}, rsp {stack:x}",
                           [load_number(RBX, bad), load_number(RSP, stack), do(what, memory=at(RBX)), UD2])
            yield Case(f"call register: target {bad:x}, rsp {stack:x}",
                       [load_number(RBX, bad), load_number(RSP, stack), do("call_register", RBX), UD2])


def every_shadow_place():
    """Each shadow access at each kind of address, by a planted SSP."""
    last = {"call": [do("call", number=1), NOP], "call next": [do("call", number=0)], "ret": [do("ret")],
            "call register": [do("call_register", RBX)], "call memory": [do("call_memory", memory=at(RSP))],
            "incsspq": [do("incsspq", RCX)], "rdsspq": [do("rdsspq", RCX)], "saveprevssp": [do("saveprevssp")],
            "rstorssp": [do("rstorssp", memory=at(RBP))]}
    before, (token,) = regions(4096)
    for where, address in PLACES.items():
        if address & 7 or not canonical(address):
            continue
        for what, instructions in last.items():
            for offset in (0, 8) if canonical(address + 8) else (0,):
                for target in ("end", NOT_CANONICAL[0]):
                    if target != "end" and not what.startswith("call "):
                        continue
                    aim = do("mov_number", RBX, number="end") if target == "end" else load_number(RBX, target)
                    body = [aim, do("push_register", RBX), do("mov_number", RCX, number=3), load_number(RBP, token),
                            *instructions, UD2, "end", UD2]
                    yield Case(f"{what}, ssp {where} + {offset}, target {target}", body, before,
                               ssp=address + offset & MASK)


def returns():
    end = [UD2, "f"]
    yield Case("return", [do("call", number="f"), *end, do("ret")])
    yield Case("bare return", [do("ret")])
    yield Case("return to another place", [do("call", number="f"), *end, do("mov_store", RAX, at(RSP)), do("ret")])
    yield Case("return past a call to the next line", [do("call", number="f"), *end, do("call", number=0), do("ret")])
    for number in (0, 8, 16, 0x7FF8, 0xFFF8, 0xFFFF, 1):
        yield Case(f"return and {number}", [do("call", number="f"), UD2, "f", do("ret_number", number=number)])
    for words in ((0x800000000000,) * 2, (MASK,) * 2, (STACK[0],) * 2, (0x500000,) * 2, (KERNEL,) * 2, (0, 0),
                  (0x200008F00,) * 2, (TEXT, TEXT + 1), (0x800000000000, TEXT), (TEXT, 0x800000000000)):
        planted = {0x7FFFF000: words[0], 0x200008F00: words[1]}
        yield Case(f"return to {words[0]:x} with {words[1]:x}", [do("ret"), UD2], planted=planted, ssp=0x200008F00,
                   registers={RSP: 0x7FFFF000})
    before, (token,) = regions(4096)
    body = [*restore(token), do("mov_load", RAX, at(RBX)), do("push_register", RAX), do("ret")]
    yield Case("return into a token", body, before)
    for target in (0x500000, STACK[0], SHADOW + 0x8000, KERNEL, 0):
        yield Case(f"call to {target:x}", [load_number(RBX, target), do("call_register", RBX)])


def raises():
    for depth in (0, 1, 2, 255, 256, 257):
        for count in (0, 1, 2, 3, 254, 255, 256, 257, 511, 0x100000001, 1 << 63, MASK):
            body = [*calls(depth), load_number(RCX, count), do("incsspq", RCX), do("rdsspq", RDX), UD2]
            yield Case(f"incsspq {count:x}, depth {depth}", body, flags(depth + count), auxiliary=count & 1)
    for register in range(16):
        body = [*calls(2), load_number(register, 2), do("incsspq", register), UD2]
        yield Case(f"incsspq of register {register}", body)
        yield Case(f"rdsspq of register {register}", [*calls(1), do("rdsspq", register), UD2], flags(register))


def restores():
    before, (first, second) = regions(4096, 8)
    for k in range(len(FLAGS)):
        for place in (first, second, first - 8, first + 4, 0x500000):
            for carry in ((), (do("stc"),), (do("clc"),)):
                yield Case(f"rstorssp {place:x}, flags {k}", [*carry, *restore(place), UD2], before + flags(k),
                           auxiliary=k & 1)
    for register in range(16):
        for displacement in (0, 8, 120, 4096, -8):
            body = [load_number(register, first - displacement), do("rstorssp", memory=at(register, displacement)), UD2]
            yield Case(f"rstorssp, base {register}, {displacement}", body, before)
    for where, address in PLACES.items():
        for base in (RBX, RBP, RSP):
            yield Case(f"rstorssp at {where}, base {base}", restore(address, base) + [UD2])
    for offset in range(1, 8):
        yield Case(f"rstorssp {offset} past", restore(first + offset) + [UD2], before)
    yield Case("rstorssp twice", [*restore(first), *restore(first), UD2], before)
    yield Case("rstorssp of a return address", [*calls(1), *restore(0x200008FF8), UD2])
    there = FIRST_REGION[1] - 64
    for word in (0, there, there + 1, there + 8, there + 9, there + 10, there + 11, there + 12, there + 13, there + 14,
                 there + 15, there + 16, there + 17, there - 7, there + 8 | 1 << 63 | 1, MASK, 1):
        yield Case(f"rstorssp finds {word:x}", [do("stc"), *restore(there), do("rdsspq", RCX), do("saveprevssp"), UD2],
                   planted={there: word}, auxiliary=True)


def saves():
    before, (first, second, third) = regions(4096, 4096, 8)
    save = do("saveprevssp")
    back = first - 8
    yield Case("there and back", [*restore(first), do("mov_load", RAX, at(RBX)), save, *restore(0x200008FF8), save,
                                  do("rdsspq", RDX), UD2], before)
    yield Case("chain of stacks", [*restore(first), *restore(second), save, *restore(back), save, save, UD2], before)
    for carry in ((), (do("stc"),), (do("clc"),)):
        name = f"saveprevssp {carry and carry[0].name}"
        yield Case(f"{name} at the end", [*carry, save, UD2], before)
        yield Case(f"{name} after a restore", [*restore(first), *carry, save, *carry, save, UD2], before)
        yield Case(f"{name} after a restore from the lowest word", [*restore(third), *restore(first), *carry, save, UD2],
                   before)
        for shift in range(8):
            body = [NOP] * shift + [do("call", number="f"), UD2, "f", *carry, save, UD2]
            yield Case(f"{name} at a return address, shifted {shift}", body)
    yield Case("calls after a restore", [*calls(3), *restore(first), *calls(2), save, UD2], before)
    yield Case("calls after a save", [*calls(3), *restore(first), save, *calls(2), *restore(0x200008FE0), save,
                                      do("rdsspq", RCX), UD2], before)
    yield Case("stack of one word", [*restore(third), save, *calls(1), do("rdsspq", RCX), *calls(1), UD2], before)
    yield Case("stack of one word, not saved", [*restore(third), *calls(1), UD2], before)
    yield Case("a raise past a token", [*restore(first), load_number(RCX, 1), do("incsspq", RCX), do("rdsspq", RDX), save],
               before)
    there = FIRST_REGION[1] - 64
    for address in PLACES.values():
        for low in range(8):
            word = address & ~7 | low
            yield Case(f"saveprevssp finds {word:x}", [save, UD2], planted={there: word}, ssp=there)
    for low in range(8):
        filled = {0x200008000 + 8 * k: MASK for k in range(4)} | {there: 0x200008008 | low}
        yield Case(f"saveprevssp beside full words, {low}", [save, do("rdsspq", RCX), UD2], planted=filled, ssp=there)


def cut_off():
    """Instructions that begin on the last page of the text and go on where none is."""
    last = (do("call", number=0), do("call_memory", memory=at(RSP, 8)), do("ret_number", number=8), do("incsspq", R11),
            do("rdsspq", RCX), do("rstorssp", memory=at(RBX)), do("saveprevssp"), do("push_memory", memory=at(RBP)))
    for item in last:
        for length in range(1, len(encode(item))):
            body = [do("jmp", number="last"), *[NOP] * (4096 - 5 - length), "last", item]
            yield Case(f"{item.name} cut off after {length}", body, length=4096)


def all_cases():
    for make in (cut_off, returns, raises, restores, saves, every_shadow_place, every_memory_place, every_stack_place):
        yield from make()
