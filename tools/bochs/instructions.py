"""Instructions as data, with their bytes, which are a spelling of docs/instructions.md, and their text."""
from collections import namedtuple

REGISTERS = "rax rcx rdx rbx rsp rbp rsi rdi r8 r9 r10 r11 r12 r13 r14 r15".split()
RAX, RCX, RDX, RBX, RSP, RBP, RSI, RDI = range(8)
R10, R11 = 10, 11
MASK = (1 << 64) - 1

Memory = namedtuple("Memory", "base displacement")
# `rex` has bits of a REX prefix that say nothing in this instruction; REX alone is a bit of its own.
Instruction = namedtuple("Instruction", "name register memory number rex", defaults=(None, None, None, 0))
REX, REX_W, REX_R, REX_X = 0x40, 8, 4, 2

# Name: prefix, REX.W, opcode, and what the ModRM byte holds: the register (/r), or a number of the opcode.
MODRM = {
    "mov_load": ("", 1, "8b", "r"), "mov_store": ("", 1, "89", "r"), "push_memory": ("", 0, "ff", 6),
    "call_memory": ("", 0, "ff", 2), "call_register": ("", 0, "ff", 2), "incsspq": ("f3", 1, "0fae", 5),
    "rdsspq": ("f3", 1, "0f1e", 1), "rstorssp": ("f3", 0, "0f01", 5), "wrssq": ("", 1, "0f38f6", "r"),
    "wrussq": ("66", 1, "0f38f5", "r"), "clrssbsy": ("f3", 0, "0fae", 6),
    "add_number": ("", 0, "81", 0),
}
PLAIN = {
    "ret": "c3", "nop": "90", "ud2": "0f0b", "syscall": "0f05", "stc": "f9", "clc": "f8", "saveprevssp": "f30f01ea",
    "setssbsy": "f30f01e8",
}
# In these REX.W says nothing.
ANY_WIDTH = ("push_register", "push_memory", "pop", "call_register", "call_memory", "rstorssp", "clrssbsy")
WITH_REX = ANY_WIDTH + ("mov_load", "mov_store", "mov_number", "mov_number_32", "incsspq", "rdsspq",
                        "add_number")
TEXTS = {
    "mov_number": "mov {r}, {n}", "mov_number_32": "mov {e}, {n}", "add_number": "add {e}, {n}",
    "mov_load": "mov {r}, {m}", "mov_store": "mov {m}, {r}", "push_register": "push {r}", "push_number": "push {n}",
    "push_memory": "push {m}", "pop": "pop {r}", "call": "call rel {n}", "call_register": "call {r}",
    "call_memory": "call {m}", "jmp": "jmp rel {n}", "ret_number": "ret {n}", "incsspq": "incsspq {r}",
    "clrssbsy": "clrssbsy {m}", "rdsspq": "rdsspq {r}", "rstorssp": "rstorssp {m}", "wrssq": "wrssq {m}, {r}",
    "wrussq": "wrussq {m}, {r}",
}
SHADOW_STACK = ("incsspq", "rdsspq", "rstorssp", "saveprevssp")
CET = SHADOW_STACK + ("call", "call_register", "call_memory", "ret", "ret_number")


def number_bytes(value, size):
    return (value & (1 << 8 * size) - 1).to_bytes(size, "little")


def fits(value, size):
    return -1 << 8 * size - 1 <= value < 1 << 8 * size - 1


def rex(wide, reg, base, idle):
    bits = REX_W * wide | (reg >> 3) * REX_R | base >> 3 | idle
    return bytes([REX | bits]) if bits else b""


def idle_bits(instruction):
    """The bits of REX that say nothing in this instruction."""
    name, _, memory, _, _ = instruction
    if name not in WITH_REX:
        return 0
    bits = REX | (REX_W if name in ANY_WIDTH else 0)
    bits |= 0 if name in ("mov_load", "mov_store") else REX_R
    return bits | (0 if memory and memory.base & 7 == RSP else REX_X)


def operand(reg, memory, register):
    """The ModRM byte and what follows it: of a register, or of memory with a base."""
    if memory is None:
        return bytes([0xC0 | (reg & 7) << 3 | register & 7])
    base, displacement = memory.base & 7, memory.displacement
    if displacement == 0 and base != RBP:
        mode, tail = 0, b""
    elif fits(displacement, 1):
        mode, tail = 1, number_bytes(displacement, 1)
    else:
        mode, tail = 2, number_bytes(displacement, 4)
    sib = b"\x24" if base == RSP else b""
    return bytes([mode << 6 | (reg & 7) << 3 | base]) + sib + tail


def encode(instruction):
    name, register, memory, number, idle = instruction
    if name in PLAIN:
        return bytes.fromhex(PLAIN[name])
    if name in MODRM:
        prefix, wide, opcode, field = MODRM[name]
        reg = register if field == "r" else field
        base = memory.base if memory else register
        tail = number_bytes(number, 4) if name == "add_number" else b""
        if tail and fits(number, 1):
            opcode, tail = "83", number_bytes(number, 1)
        reg_extended = reg if field == "r" else 0
        return bytes.fromhex(prefix) + rex(wide, reg_extended, base, idle) + bytes.fromhex(opcode) + operand(
            reg, memory, register) + tail
    if name == "mov_register":
        return rex(1, number, register, idle) + b"\x89" + operand(number, None, register)
    if name in ("push_register", "pop"):
        return rex(0, 0, register, idle) + bytes([(0x50 if name == "push_register" else 0x58) + (register & 7)])
    if name == "push_number":
        return b"\x6a" + number_bytes(number, 1) if fits(number, 1) else b"\x68" + number_bytes(number, 4)
    if name == "mov_number_32":
        return rex(0, 0, register, idle) + bytes([0xB8 + (register & 7)]) + number_bytes(number, 4)
    if name == "mov_number":
        if fits(number, 4):
            return rex(1, 0, register, idle) + b"\xc7" + bytes([0xC0 | register & 7]) + number_bytes(number, 4)
        return rex(1, 0, register, idle) + bytes([0xB8 + (register & 7)]) + number_bytes(number, 8)
    opcodes = {"call": (b"\xe8", 4), "jmp": (b"\xe9", 4), "ret_number": (b"\xc2", 2)}
    opcode, size = opcodes[name]
    return opcode + number_bytes(number, size)


def number_text(value):
    return f"-{-value:#x}" if value < 0 else f"{value:#x}"


def text(instruction):
    """The line for `cetvm asm`."""
    name, register, memory, number, _ = instruction
    place = ""
    if memory:
        sign = "-" if memory.displacement < 0 else "+"
        tail = f"{sign}{abs(memory.displacement):#x}" if memory.displacement else ""
        place = f"[{REGISTERS[memory.base]}{tail}]"
    wide = REGISTERS[register] if register is not None else ""
    narrow = wide + "d" if wide[1:].isdigit() else "e" + wide[1:]
    if name == "mov_register":
        return f"mov {wide}, {REGISTERS[number]}"
    return TEXTS.get(name, name).format(
        r=wide, e=narrow, m=place, n=number_text(number) if number is not None else "")


def at(base, displacement=0):
    return Memory(base, displacement)


def do(name, register=None, memory=None, number=None):
    return Instruction(name, register, memory, number)


def load_number(register, value):
    """`mov` of a value of 64 bits, as a number that may be negative."""
    value &= MASK
    return do("mov_number", register, number=value - (1 << 64) if value >> 31 == (1 << 33) - 1 else value)
