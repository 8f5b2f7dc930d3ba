"""Programs: their listing, as `cetvm dis` writes it of the image that `cetvm asm` made, and the image's bytes."""
import os
import struct
import subprocess
from collections import namedtuple

from places import PAGE

Instruction = namedtuple("Instruction", "name operands length text")
Register = namedtuple("Register", "number size")
Memory = namedtuple("Memory", "base index scale displacement size")
Number = namedtuple("Number", "value")
Segment = namedtuple("Segment", "start data size executable writable")

NAMES = "rax rcx rdx rbx rsp rbp rsi rdi r8 r9 r10 r11 r12 r13 r14 r15".split()
RAX, RCX, RDX, RBX, RSP, RBP, RSI, RDI, R8, R9, R10, R11, R12, R13, R14, R15 = range(16)
REGISTERS = {name: Register(number, 8) for number, name in enumerate(NAMES)}
REGISTERS |= {name + "d" if name[1:].isdigit() else "e" + name[1:]: Register(number, 4)
              for number, name in enumerate(NAMES)}
REGISTERS["cl"] = Register(RCX, 1)
PREFIXES = ("lock", "notrack")
SIZES = {"dword": 4, "byte": 1}
# The most bytes that are fetched.
LONGEST = 15


class Unknown(Exception):
    """Something that the model doesn't know."""


def number(text):
    sign, digits = (-1, text[1:]) if text.startswith("-") else (1, text)
    return sign * int(digits, 0)


def memory(text, size):
    base, index, scale, displacement = None, None, 1, 0
    for part in text[1:-1].replace("-", "+-").split("+"):
        name, times, factor = part.partition("*")
        if times:
            index, scale = REGISTERS[name].number, int(factor)
        elif name == "rip":
            base = "rip"
        elif name in REGISTERS:
            base = REGISTERS[name].number
        elif part:
            displacement = number(part)
    return Memory(base, index, scale, displacement, size)


def operand(text):
    word, _, rest = text.partition(" ")
    if word == "rel":
        return Number(number(rest))
    if word in SIZES:
        return memory(rest, SIZES[word])
    if text.startswith("["):
        return memory(text, None)
    return REGISTERS[text] if text in REGISTERS else Number(number(text))


def instruction(code, text):
    name, _, rest = text.partition(" ")
    if name in PREFIXES:
        prefix, (name, _, rest) = name, rest.partition(" ")
        name = f"{prefix} {name}" if prefix == "lock" else name
    try:
        operands = [operand(part) for part in rest.split(", ")] if rest else []
    except (KeyError, ValueError) as error:
        raise Unknown(f"the operands of {text}") from error
    return Instruction(name, operands, len(code) // 2, text)


class Program:
    """An image: its entry, its segments, and the instructions of its listing by their addresses."""

    def __init__(self, image, lines):
        self.entry, = struct.unpack_from("<Q", image, 24)
        count, = struct.unpack_from("<H", image, 56)
        self.segments = []
        for place in range(64, 64 + 56 * count, 56):
            kind, flags, offset, start, _, filled, size, _ = struct.unpack_from("<IIQQQQQQ", image, place)
            if kind == 1:
                data = image[offset:offset + filled]
                self.segments.append(Segment(start, data, size, bool(flags & 1), bool(flags & 2)))
        self.code_pages = {page // PAGE for page, segment in self.pages() if segment.executable}
        self.instructions, self.lone_bytes = {}, {}
        for line in lines:
            address, code, text = line.split(" ", 2)
            if text.startswith(".byte"):
                self.lone_bytes[int(address, 16)] = int(code, 16)
            else:
                self.instructions[int(address, 16)] = instruction(code, text)

    def pages(self):
        """The address of each page with its segment."""
        for segment in self.segments:
            last = segment.start + segment.size - 1
            for page in range(segment.start // PAGE, last // PAGE + 1 if segment.size else 0):
                yield page * PAGE, segment

    def executable(self, address):
        return address // PAGE in self.code_pages

    def words(self):
        """The words that are not 0 at the start, by their addresses."""
        for segment in self.segments:
            before = segment.start % 8
            data = bytes(before) + segment.data
            for place in range(0, len(data), 8):
                word = int.from_bytes(data[place:place + 8].ljust(8, b"\0"), "little")
                if word:
                    yield segment.start - before + place, word

    def at(self, address):
        """The instruction at an address of an executable page; nothing where the bytes are none."""
        if address in self.instructions:
            return self.instructions[address]
        code = [(segment.start, segment.start + segment.size) for segment in self.segments if segment.executable]
        if self.lone_bytes.get(address) == 0 or not any(start <= address < end for start, end in code):
            return None
        if address in self.lone_bytes and any(start <= address and address + LONGEST <= end for start, end in code):
            return None
        raise Unknown(f"the bytes at {address:x}, which are in the middle of the listing")


def run(cetvm, words, data):
    if not os.access(cetvm, os.X_OK):
        raise Unknown(f"a program at {cetvm}")
    return subprocess.run([cetvm, *words], input=data, capture_output=True, timeout=600)


def build(cetvm, source):
    """The image of a source, and its program."""
    made = run(cetvm, ["asm"], source.encode())
    if made.returncode:
        raise Unknown(f"a source that isn't assembled: {made.stderr.decode().strip()}")
    listed = run(cetvm, ["dis"], made.stdout)
    return made.stdout, Program(made.stdout, listed.stdout.decode().splitlines())
