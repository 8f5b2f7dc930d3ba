"""The machine once more: one thread of cetvm, and, with the differences of differences.py, of Bochs. It is written from
docs/ and from Intel's manual, without a look at the crates, so that it agrees with them only where both are right."""
from instructions import MASK, R10, R11, RAX, RBP, RCX, RDI, RDX, RSI, RSP, encode

CF, PF, AF, ZF, SF, OF = 1, 4, 16, 64, 128, 2048
STATUS = CF | PF | AF | ZF | SF | OF
TEXT = 0x401000
STACK = (0x7FFC0000, 0x80000000)
STACK_TOP = 0x7FFFFFC0
MMAP = (0x100000000, 0x100400000)
SHADOW = 0x200000000
SHADOW_END = 0x200400000
KERNEL = 0xFFFF800000000000
FIRST_REGION = (0x200001000, 0x200009000)
MAP, UNMAP, EXIT, EXIT_GROUP, MAP_SHADOW_STACK = 9, 11, 60, 231, 453
OTHER_SERVICES = (1, 13, 14, 15, 24, 56, 158, 186, 234)
ENOMEM, EEXIST, EINVAL, ENOSPC, ERANGE, ENOSYS, EOVERFLOW = 12, 17, 22, 28, 34, 38, 75
# Place of each range: its first page number, its first address, the address past its end.
RANGES = ((0, 0x400000, 0x800000), (1024, *STACK), (1088, *MMAP), (2112, SHADOW, SHADOW_END),
          (3136, KERNEL, KERNEL + 0x12000))
PRESENT, WRITABLE, USER, ACCESSED, DIRTY, NO_EXECUTE = 1, 2, 4, 32, 64, 1 << 63
LOAD, STORE, FETCH, SHADOW_LOAD, SHADOW_STORE = range(5)
KIND_CODE = (0, 2, 16, 64, 66)


class Fault(Exception):
    """A fault: its name, its error code, and the two values of its record. `a` of a page fault is the address."""

    def __init__(self, name, code=0, a=0, b=0):
        super().__init__(name)
        self.name, self.code, self.a, self.b = name, code, a, b


def canonical(address):
    return address >> 47 in (0, (1 << 17) - 1)


class Machine:
    """`here` (with no differences) or Bochs (with them). `met` counts the differences that had an effect."""

    def __init__(self, bytes_of_text, instructions, bochs=False):
        self.text, self.instructions, self.bochs = bytes_of_text, instructions, bochs
        self.registers = [0] * 16
        self.registers[RSP] = STACK_TOP
        self.rip, self.flags, self.ssp = TEXT, 2, FIRST_REGION[1]
        self.words = {}
        self.regions = [FIRST_REGION]
        # Pages of the mmap area and the shadow area that are present, by their addresses.
        self.pages = set(range(*FIRST_REGION, 4096))
        self.mapped, self.drawn = 0, 9
        self.ended = None
        self.met = set()

    def copy(self, bochs):
        other = Machine(self.text, self.instructions, bochs)
        other.registers, other.words = list(self.registers), dict(self.words)
        other.rip, other.flags, other.ssp = self.rip, self.flags, self.ssp
        other.regions, other.pages = list(self.regions), set(self.pages)
        other.mapped, other.drawn = self.mapped, self.drawn
        return other

    # Memory

    def rights(self, address):
        """The bits of the page's entry but for its frame, 0 where it is absent."""
        if TEXT <= address < TEXT + (len(self.text) + 4095 & ~4095):
            return PRESENT | USER | ACCESSED
        if STACK[0] <= address < STACK[1]:
            return PRESENT | WRITABLE | USER | ACCESSED | DIRTY | NO_EXECUTE
        if address & ~4095 in self.pages:
            return PRESENT | USER | ACCESSED | DIRTY | NO_EXECUTE | (WRITABLE if address < MMAP[1] else 0)
        if KERNEL <= address < KERNEL + 4096:
            return PRESENT | WRITABLE | ACCESSED | DIRTY | NO_EXECUTE
        if KERNEL + 0x2000 <= address < KERNEL + 0x11000 and not address >> 12 & 1:
            return PRESENT | ACCESSED | DIRTY | NO_EXECUTE
        return 0

    def entry(self, address):
        rights = self.rights(address)
        for first, start, end in RANGES:
            if rights and start <= address < end:
                return rights | (first + (address - start >> 12) + 256) << 12
        return 0

    def look(self, address, kind, code_kind=None):
        entry = self.entry(address)
        faulty = not entry & PRESENT or not entry & USER
        faulty |= kind == FETCH and bool(entry & NO_EXECUTE)
        faulty |= kind == STORE and not entry & WRITABLE
        faulty |= kind >= SHADOW_LOAD and (bool(entry & WRITABLE) or not entry & DIRTY)
        if faulty:
            code = entry & PRESENT | 4 | KIND_CODE[kind if code_kind is None else code_kind]
            raise Fault("#PF", code, address, entry)

    def shadow_look(self, address, kind):
        if self.bochs and not canonical(address):
            self.met.add("ssp_not_canonical")
            raise Fault("#GP")
        self.look(address, kind)

    def word(self, address):
        place = address - TEXT
        if 0 <= place < len(self.text) + 4096:
            return int.from_bytes(self.text[place:place + 8].ljust(8, b"\0"), "little")
        return self.words.get(address, 0)

    def test(self, address, stack=True):
        if not canonical(address):
            if stack and self.bochs:
                self.met.add("stack_fault")
                raise Fault("#SS")
            raise Fault("#GP")
        if address & 7:
            raise Fault("#AC", 0, address)

    def address(self, memory):
        return self.registers[memory.base] + memory.displacement & MASK

    def load(self, memory):
        address = self.address(memory)
        self.test(address, memory.base in (RSP, RBP))
        self.look(address, LOAD)
        return self.word(address)

    # A step

    def step(self):
        """Runs the instruction at RIP. Gives its record as name, code, a, b, or raises the fault."""
        self.look(self.rip, FETCH)
        instruction = self.instructions[self.rip]
        length = len(encode(instruction))
        if self.rip + length - 1 >> 12 != self.rip >> 12:
            self.look(self.rip + length - 1 & ~4095, FETCH)
        self.after = self.rip + length
        record = getattr(self, instruction.name)(instruction)
        self.rip = self.after
        return record

    def done(self, value):
        return ("step", 0, value, self.flags & ~AF)

    def set_register(self, register, value):
        self.registers[register] = value
        return self.done(value)

    def nop(self, _):
        return self.done(0)

    def stc(self, _):
        self.flags |= CF
        return self.done(0)

    def clc(self, _):
        self.flags &= ~CF
        return self.done(0)

    def ud2(self, _):
        raise Fault("#UD")

    def wrssq(self, _):
        raise Fault("#UD")

    def wrussq(self, _):
        raise Fault("#GP")

    setssbsy = clrssbsy = wrussq

    def jmp(self, i):
        self.after = self.after + i.number & MASK
        return self.done(self.after)

    def mov_number(self, i):
        return self.set_register(i.register, i.number & MASK)

    def mov_number_32(self, i):
        return self.set_register(i.register, i.number & 0xFFFFFFFF)

    def mov_register(self, i):
        return self.set_register(i.register, self.registers[i.number])

    def mov_load(self, i):
        return self.set_register(i.register, self.load(i.memory))

    def mov_store(self, i):
        address = self.address(i.memory)
        self.test(address, i.memory.base in (RSP, RBP))
        self.look(address, STORE)
        self.words[address] = self.registers[i.register]
        return self.done(self.words[address])

    def add_number(self, i):
        left, right = self.registers[i.register] & 0xFFFFFFFF, i.number & 0xFFFFFFFF
        total = left + right
        result = total & 0xFFFFFFFF
        flags = CF * (total >> 32) | ZF * (result == 0) | SF * (result >> 31)
        flags |= PF * (1 - bin(result & 255).count("1") % 2) | AF * ((left ^ right ^ result) >> 4 & 1)
        flags |= OF * (((left ^ result) & (right ^ result)) >> 31)
        self.flags = self.flags & ~STATUS | flags
        return self.set_register(i.register, result)

    def syscall(self, _):
        """exit, exit_group, mmap, munmap and map_shadow_stack. Services on signals, threads and text are cetvm's, but not
        this model's; every other number answers ENOSYS."""
        registers, number = self.registers, self.registers[RAX]
        if number in OTHER_SERVICES:
            raise KeyError(number)
        if number in (EXIT, EXIT_GROUP):
            status = registers[RDI] & 255
            self.ended = ("exit" if number == EXIT else "group", status)
            return ("sys", 0, number, status)
        size = registers[RSI]
        result = -ENOSYS
        if number == MAP:
            result = self.map(registers[RDI], size, registers[RDX], registers[R10])
        elif number == UNMAP:
            result = self.unmap(registers[RDI], size)
        elif number == MAP_SHADOW_STACK:
            result = self.map_shadow_stack(registers[RDI], size, registers[RDX])
        registers[RAX], registers[RCX], registers[R11] = result & MASK, self.after, self.flags & ~AF
        made = number == MAP_SHADOW_STACK and result > 0
        return ("claim", 0, result, size) if made else ("sys", 0, number, result & MASK)

    def map(self, address, length, rights, flags):
        """The address of the new pages, or minus an error."""
        pages = length + 4095 >> 12
        if address or not length or rights != 3 or flags not in (0x22, 0x20022):
            return -EINVAL
        if pages > 1024:
            return -ENOMEM
        drawn, self.mapped = self.mapped, self.mapped + pages
        if drawn + pages > 1024:
            return -ENOMEM
        start = MMAP[0] + 4096 * drawn
        self.pages |= set(range(start, start + 4096 * pages, 4096))
        return start

    def unmap(self, address, length):
        """0, or minus an error."""
        end = address + (length + 4095 & ~4095)
        within = any(low <= address and end <= high for low, high in (MMAP, (SHADOW, SHADOW_END)))
        if address & 4095 or not length or not within:
            return -EINVAL
        self.pages -= set(range(address, end, 4096))
        return 0

    def map_shadow_stack(self, address, size, flags):
        """The start of the new stack, or minus an error."""
        token, pages = flags == 1, size + 4095 >> 12
        errors = (
            (flags > 1, EINVAL), (token and size < 8, ENOSPC), (0 < address < 1 << 32, ERANGE),
            (4096 * pages >= 1 << 64, EOVERFLOW), (size == 0 or token and size % 8 > 0, EINVAL), (address > 0, EEXIST),
            (pages > 1022, ENOMEM),
        )
        for wrong, error in errors:
            if wrong:
                return -error
        drawn, self.drawn = self.drawn, self.drawn + pages + 1
        if drawn + pages + 1 > 1023:
            return -ENOMEM
        start = SHADOW + 4096 * (drawn + 1)
        self.regions.append((start, start + 4096 * pages))
        self.pages |= set(range(start, start + 4096 * pages, 4096))
        if token:
            self.words[start + size - 8] = start + size | 1
        return start

    def push(self, value):
        address = self.registers[RSP] - 8 & MASK
        self.test(address)
        self.look(address, STORE)
        self.words[address] = value
        self.registers[RSP] = address
        return self.done(value)

    def push_register(self, i):
        return self.push(self.registers[i.register])

    def push_number(self, i):
        return self.push(i.number & MASK)

    def push_memory(self, i):
        return self.push(self.load(i.memory))

    def pop(self, i):
        address = self.registers[RSP]
        self.test(address)
        self.look(address, LOAD)
        self.registers[RSP] = address + 8 & MASK
        return self.set_register(i.register, self.word(address))

    def call(self, i):
        return self.call_to(self.after + i.number & MASK, i.number != 0)

    def call_register(self, i):
        return self.call_to(self.registers[i.register], True)

    def call_memory(self, i):
        return self.call_to(self.load(i.memory), True)

    def call_to(self, target, shadow):
        address, entry = self.registers[RSP] - 8 & MASK, self.ssp - 8 & MASK
        if not self.bochs and not canonical(target):
            raise Fault("#GP")
        self.test(address)
        self.look(address, STORE)
        if self.bochs:
            self.pushes_before_tests(address, entry, target, shadow)
        elif shadow:
            self.shadow_look(entry, SHADOW_STORE)
        self.words[address] = self.after
        self.registers[RSP] = address
        if shadow:
            self.words[entry] = self.after
            self.ssp = entry
        self.after = target
        return ("call", 0, target, self.ssp)

    def pushes_before_tests(self, address, entry, target, shadow):
        """What Bochs writes where CALL faults after a push."""
        old = self.words.get(address, 0), self.words.get(entry, 0)
        try:
            self.words[address] = self.after
            if shadow:
                self.shadow_look(entry, SHADOW_STORE)
                self.words[entry] = self.after
            if not canonical(target):
                raise Fault("#GP")
        except Fault:
            if (self.words.get(address, 0), self.words.get(entry, 0)) != old:
                self.met.add("call_pushes_first")
            raise

    def ret(self, i):
        return self.return_past(0)

    def ret_number(self, i):
        return self.return_past(i.number)

    def return_past(self, number):
        address = self.registers[RSP]
        self.test(address)
        self.look(address, LOAD)
        self.shadow_look(self.ssp, SHADOW_LOAD)
        data, shadow = self.word(address), self.word(self.ssp)
        if data != shadow:
            raise Fault("#CP", 1, data, shadow)
        if not canonical(data):
            raise Fault("#GP")
        self.registers[RSP] = address + 8 + number & MASK
        self.ssp = self.ssp + 8 & MASK
        self.after = data
        return ("ret", 0, data, self.ssp)

    # The shadow stack

    def incsspq(self, i):
        count = self.registers[i.register] & 255
        self.shadow_look(self.ssp, SHADOW_LOAD)
        self.shadow_look(self.ssp + 8 * (max(count, 1) - 1) & MASK, SHADOW_LOAD)
        self.ssp = self.ssp + 8 * count & MASK
        return ("raise", 0, self.ssp, count)

    def rdsspq(self, i):
        return self.set_register(i.register, self.ssp)

    def rstorssp(self, i):
        place = self.address(i.memory)
        if place & 7 or not canonical(place):
            raise Fault("#GP")
        try:
            self.look(place, SHADOW_STORE, SHADOW_LOAD if self.bochs else None)
        except Fault:
            self.met.add("restore_write_bit")
            raise
        found, carry = self.word(place), 0
        if self.bochs and found == place + 12 | 1:
            self.met.add("token_with_bit_2")
            carry = CF
        elif found != place + 8 | 1:
            raise Fault("#CP", 4, place, found)
        before = self.ssp
        self.words[place] = before | 3
        self.ssp = place
        self.flags = self.flags & ~STATUS | carry
        return ("take", 0, place, before)

    def saveprevssp(self, _):
        self.shadow_look(self.ssp, SHADOW_LOAD)
        word = self.word(self.ssp)
        if self.flags & CF or not word & 2:
            raise Fault("#GP")
        old = word & ~3
        place = (old & ~7) - 8 & MASK
        if self.bochs:
            self.zero_bytes(old - 4 & MASK)
        elif not canonical(place):
            raise Fault("#GP")
        self.shadow_look(place, SHADOW_STORE)
        self.words[place] = old | 1
        self.ssp = self.ssp + 8 & MASK
        return ("save", 0, place, self.ssp)

    def zero_bytes(self, address):
        """Bochs's store of four zero bytes."""
        if not canonical(address):
            raise Fault("#GP")
        try:
            self.look(address, SHADOW_STORE)
        except Fault:
            self.met.add("save_zero_bytes")
            raise
        place, shift = address & ~7, 8 * (address & 4)
        old = self.words.get(place, 0)
        self.words[place] = old & ~(0xFFFFFFFF << shift)
        if not shift and old != self.words[place]:
            self.met.add("save_zero_bytes")
