"""Sources assembled by GNU as and ld, and code listed by GNU objdump, in the place of `cetvm asm` and `cetvm dis`.

A line is written anew in the syntax of GNU as: its numbers in decimal, sizes of memory spelled out, near jumps in their
long form. Where GNU as takes another spelling than the assembler's, the line becomes bytes. Sources that are faulty
aren't told by line and rule here: GNU as refuses them, or `Unknown` is raised."""
import re
import struct
import subprocess
import tempfile
from pathlib import Path

from listing import NAMES, REGISTERS, Unknown

TEXT = 0x401000
PAGE = 4096
# The most bytes of text, in whole pages, and data.
MOST = 4190208
NOTE = 0x6474E553
HALVES = [name for name, register in REGISTERS.items() if register.size == 4]
ALU = "add or adc sbb and sub xor cmp".split()
SHIFTS = {"shl": 4, "shr": 5, "sar": 7}
CONDITIONS = "o no b ae e ne be a s ns p np l ge le g".split()
JUMPS = {"j" + condition: number for number, condition in enumerate(CONDITIONS)}
FLOW = {"call", "jmp", *JUMPS}
PLAIN = set("""test mov movabs movzx movsxd lea xchg inc dec not neg imul push pop leave call jmp ret nop pause endbr64
ud2 syscall stc clc xadd cmpxchg incsspq rdsspq rstorssp saveprevssp setssbsy clrssbsy wrssq wrussq""".split())
# Operands of 8 and 16 bits, but for those of movzx and the count of shifts.
NARROW = re.compile(r"\b([abd]l|[abcd]h|[abcd]x|[sd]il?|[sb]pl?|r\d+[bw])\b|(?<![QD])WORD PTR|BYTE PTR")
MNEMONICS = {*PLAIN, *ALU, *SHIFTS, *JUMPS, *("cmov" + condition for condition in CONDITIONS)}


def number(text):
    """The number that a text is, or nothing."""
    sign, digits = (-1, text[1:]) if text.startswith("-") else (1, text)
    if re.fullmatch(r"0x[0-9a-fA-F]{1,16}", digits):
        return sign * int(digits, 16)
    return sign * int(digits) if re.fullmatch(r"[0-9]{1,20}", digits) else None


def label(name):
    """The name of a label for GNU as, in whose syntax some words are taken."""
    if not re.fullmatch(r"[A-Za-z_]\w*", name):
        raise Unknown(f"the operand {name}")
    return "L_" + name


def placed(part):
    """A number or a label within memory."""
    value = number(part.replace("--", ""))
    return label(part) if value is None else str(value)


def memory(text):
    parts = re.sub(r"\s", "", text)[1:-1].replace("-", "+-").split("+")
    parts = "+".join(parts).replace("+-+-", "+--").split("+")
    names = [part if part == "rip" or part.partition("*")[0] in REGISTERS else placed(part) for part in parts if part]
    return "[" + "+".join(names) + "]"


class Line:
    """An instruction with its operands."""

    def __init__(self, name, rest):
        self.prefix = ""
        if name in ("lock", "notrack"):
            self.prefix, (name, _, rest) = name + " ", rest.partition(" ")
        self.name, self.operands = name, [part.strip() for part in rest.split(",")] if rest else []
        self.registers = [REGISTERS[part] for part in self.operands if part in REGISTERS]

    def size(self):
        """The bytes that the instruction works on."""
        return self.registers[0].size if self.registers else 8

    def sized(self, text):
        """Memory with its size spelled out."""
        word, _, place = text.partition(" ") if not text.startswith("[") else ("", "", text)
        plain = {"lea": "", "movsxd": "dword ptr ", "movzx": "byte ptr "}
        words = {"dword": "dword ptr ", "byte": "byte ptr ", "": "" if self.registers else "qword ptr "}
        return plain.get(self.name, words[word]) + memory(place.strip())

    def operand(self, text):
        if text in REGISTERS:
            return HALVES[REGISTERS[text].number] if self.name == "movzx" else text
        if "[" in text:
            return self.sized(text)
        value = number(text)
        return str(value) if value is not None else f"offset {label(text)}"

    def spelled(self, code, field, register, immediate=b""):
        """The bytes of an instruction on a register, with the field beside it in the byte behind the code."""
        rex = 0x40 | (8 if register.size == 8 else 0) | (4 if field > 7 else 0) | (1 if register.number > 7 else 0)
        head = bytes([rex] if rex != 0x40 else [])
        return head + bytes([code, 0xC0 | (field & 7) << 3 | register.number & 7]) + immediate

    def bytes(self):
        """The bytes where GNU as would take another spelling, else nothing."""
        if self.operands and self.operands[0].startswith("rel "):
            code = {"call": b"\xe8", "jmp": b"\xe9"}.get(self.name) or bytes([0x0F, 0x80 + JUMPS[self.name]])
            return code + struct.pack("<i", number(self.operands[0][4:].strip()))
        if len(self.operands) != 2 or self.operands[0] not in REGISTERS:
            return None
        first, value = REGISTERS[self.operands[0]], number(self.operands[1])
        if self.name == "xchg" and self.operands[1] in REGISTERS:
            return self.spelled(0x87, REGISTERS[self.operands[1]].number, first)
        if self.name in SHIFTS and value == 1:
            return self.spelled(0xC1, SHIFTS[self.name], first, b"\x01")
        if value is not None and (self.name == "test" or self.name in ALU) and first.number == 0:
            signed = value - 2 ** 32 if first.size == 4 and value >= 2 ** 31 else value
            if self.name == "test":
                return self.spelled(0xF7, 0, first, struct.pack("<i", signed))
            if not -128 <= signed < 128:
                return self.spelled(0x81, ALU.index(self.name), first, struct.pack("<i", signed))
        return None

    def gnu(self):
        """The line for GNU as."""
        code = self.bytes()
        if code:
            return ".byte " + ",".join(map(str, code))
        if self.name not in MNEMONICS:
            raise Unknown(f"the mnemonic {self.name}")
        if self.name in FLOW and "[" not in self.operands[0] and self.operands[0] not in REGISTERS:
            word, _, name = self.operands[0].rpartition(" ")
            near = "" if self.name == "call" else "{disp8} " if word == "short" else "{disp32} "
            return f"{near}{self.name} {label(name)}"
        name, value = self.name, number(self.operands[-1]) if self.operands else None
        wide = value is not None and not -2 ** 31 <= value < 2 ** 31
        if name == "mov" and wide and self.registers and self.size() == 8:
            name = "movabs"
        return f"{self.prefix}{name} " + ", ".join(map(self.operand, self.operands))


def item(text):
    value = number(text.strip())
    return label(text.strip()) if value is None else str(value % 2 ** 64)


def directive(name, rest):
    if name in (".text", ".data"):
        return name
    if name == ".byte":
        return ".byte " + ",".join(str(number(part.strip()) % 256) for part in rest.split(","))
    if name == ".quad":
        return ".quad " + ",".join(map(item, rest.split(",")))
    if name == ".zero":
        return f".zero {number(rest)}"
    raise Unknown(f"the directive {name}")


def translated(source):
    """The text for GNU as, and the mark."""
    lines, mark = [".intel_syntax noprefix"], 2
    for line in source.split("\n"):
        line = re.split("[;#]", line, maxsplit=1)[0].strip(" \t")
        while found := re.match(r"([A-Za-z_]\w*):[ \t]*", line):
            lines.append(label(found[1]) + ":")
            line = line[found.end():]
        name, _, rest = line.replace("\t", " ").partition(" ")
        if name == ".mark":
            mark = number(rest.strip())
        elif name:
            lines.append(directive(name, rest.strip()) if name.startswith(".") else Line(name, rest.strip()).gnu())
    return "\n".join(lines) + "\n", mark


def ran(*words):
    made = subprocess.run(words, capture_output=True, text=True)
    if made.returncode:
        raise Unknown(f"{words[0]} refuses: {made.stderr.strip().splitlines()[-1]}")
    return made.stdout


def parts(folder, source):
    """The bytes of text and data, the entry and the mark."""
    text, mark = translated(source)
    (folder / "s").write_text(text)
    ran("as", "--64", "-o", folder / "o", folder / "s")
    sizes = dict(re.findall(r"^\s*\d+ \.(text|data)\s+([0-9a-f]+)", ran("objdump", "-h", folder / "o"), re.M))
    pages = (int(sizes["text"], 16) + PAGE - 1) // PAGE * PAGE
    ran("ld", f"-Ttext={TEXT:#x}", f"-Tdata={TEXT + pages:#x}", "-e", f"{TEXT:#x}", "-o", folder / "x", folder / "o")
    both = []
    for name in ("text", "data"):
        (folder / name).write_bytes(b"")
        if int(sizes[name], 16):
            ran("objcopy", "-O", "binary", "-j", "." + name, folder / "x", folder / name)
        both.append((folder / name).read_bytes())
    entry = re.search(r"^([0-9a-f]+) . L__start$", ran("nm", folder / "x"), re.M)
    return *both, int(entry[1], 16) if entry else TEXT, mark


def header(kind, flags, offset, address, size, alignment):
    return struct.pack("<IIQQQQQQ", kind, flags, offset, address, address, size, size, alignment)


def assembled(source):
    """The image of a source."""
    with tempfile.TemporaryDirectory() as folder:
        text, data, entry, mark = parts(Path(folder), source)
    pages = (len(text) + PAGE - 1) // PAGE * PAGE
    if pages + len(data) > MOST:
        raise Unknown("a program that is too long")
    headers = [header(1, 5, PAGE, TEXT, len(text), PAGE)]
    if data:
        headers.append(header(1, 6, PAGE + pages, TEXT + pages, len(data), PAGE))
    headers.append(header(NOTE, 4, 232, 0, 32, 8))
    start = b"\x7fELF\x02\x01\x01" + bytes(9)
    start += struct.pack("<HHIQQQIHHHHHH", 2, 62, 1, entry, 64, 0, 0, 64, 56, len(headers), 0, 0, 0)
    note = struct.pack("<III4sIIII", 4, 16, 5, b"GNU\0", 0xC0000002, 4, mark, 0)
    image = (start + b"".join(headers)).ljust(232, b"\0") + note
    image = image.ljust(PAGE, b"\0") + text
    return image.ljust(PAGE + pages, b"\0") + data if data else image


def signed(value, size):
    value = value - 2 ** (8 * size) if value >= 2 ** (8 * size - 1) else value
    return f"{value:#x}"


def listed_operand(name, text, size):
    if re.fullmatch(r"0x[0-9a-f]+|\d+", text):
        value = int(text, 0)
        return hex(value) if name in ("movabs", "ret") or name in SHIFTS else signed(value, size)
    if name == "movzx" and text in REGISTERS:
        return NAMES[REGISTERS[text].number]
    text = re.sub(r"ds:(0x[0-9a-f]+)", r"[\1]", text).replace("QWORD PTR ", "")
    text = re.sub(r"\+0x0\]", "]", text)
    text = re.sub(r"\+?0xf[0-9a-f]{15}\]", lambda found: signed(int(found[0][:-1].lstrip("+"), 0), 8) + "]", text)
    return text.replace("BYTE PTR ", "byte ").replace("DWORD PTR ", "dword " if name in ("cmp", "test") else "")


def listed_text(code, address, shown):
    """The text of an instruction in the assembler's language; nothing where it isn't one of it."""
    shown = re.sub(r"\s+#.*", "", shown).strip()
    prefix, name, rest = re.fullmatch(r"((?:lock |notrack )?)(\S+)\s*(.*)", shown).groups()
    if name not in MNEMONICS or "(bad)" in shown or name != "movzx" and NARROW.search(rest):
        return None
    target = re.fullmatch(r"0x([0-9a-f]+)", rest)
    if name in FLOW and target:
        return f"{name} rel {int(target[1], 16) - address - len(code):#x}"
    operands = rest.split(",") if rest else []
    size = next((REGISTERS[part].size for part in operands if part in REGISTERS), 4 if "DWORD PTR" in rest else 8)
    words = [listed_operand(name, part, size) for part in operands]
    if not any(part in REGISTERS for part in words) or name in ("movsxd", "movzx") or not words:
        return prefix + f"{name} {', '.join(words)}".strip()
    return prefix + f"{name} {', '.join(part.replace('dword ', '') for part in words)}"


def disassembled(data, address):
    """The instructions that objdump finds: address, bytes, text."""
    with tempfile.TemporaryDirectory() as folder:
        place = Path(folder) / "code"
        place.write_bytes(data)
        shown = ran("objdump", "-D", "-b", "binary", "-m", "i386:x86-64", "-M", "intel", "-w", "-z",
                    f"--adjust-vma={address:#x}", place)
    for found in re.finditer(r"^\s*([0-9a-f]+):\t([0-9a-f ]+?)\s*\t(.*)$", shown, re.M):
        yield int(found[1], 16), bytes.fromhex(found[2]), found[3]


def listed(image):
    """The listing of an image, line by line."""
    count, = struct.unpack_from("<H", image, 56)
    for place in range(64, 64 + 56 * count, 56):
        kind, flags, offset, start, _, filled, size, _ = struct.unpack_from("<IIQQQQQQ", image, place)
        if kind == 1 and flags & 1:
            yield from listed_segment(image[offset:offset + filled].ljust(size, b"\0"), start)


def listed_segment(data, start):
    at, again = 0, True
    while at < len(data) and again:
        again = False
        for address, code, shown in disassembled(data[at:], start + at):
            text = listed_text(code, address, shown)
            at = address - start
            if text is None:
                yield f"{address:016x} {data[at]:02x} .byte 0x{data[at]:02x}"
                at, again = at + 1, True
                break
            yield f"{address:016x} {code.hex()} {text}"
            at += len(code)
