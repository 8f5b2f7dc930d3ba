"""Bochs with one disk of cases: makes the disk, runs it, and reads what boot.asm printed."""
import re
import struct
import subprocess
from pathlib import Path

from instructions import MASK
from model import ACCESSED, DIRTY, KERNEL, NO_EXECUTE, PRESENT, SHADOW, STACK, TEXT, USER, WRITABLE

HERE = Path(__file__).resolve().parent
# Places in memory. The tables and all below them come in one read of 127 sectors.
TABLES, LOADED = 0x9000, 0x200000
TEXT_PLACE, TEXT_PAGES = 0x100000, 16
STACK_PLACE = TEXT_PLACE + 4096 * TEXT_PAGES
SHADOW_PLACE, SHADOW_PAGES = STACK_PLACE + STACK[1] - STACK[0], 48
KERNEL_PLACE = SHADOW_PLACE + 4096 * SHADOW_PAGES
CASES = 128
TOKEN = 0x2FF8
SPARE = 16 << 20
# The page tables, in their order in memory.
(ROOT, LOW_POINTERS, LOW_0, LOW_1, LOW_8, TEXT_TABLE, STACK_TABLE, SHADOW_TABLE, KERNEL_POINTERS, KERNEL_DIRECTORY,
 KERNEL_TABLE, ALL_POINTERS, ALL_DIRECTORY) = (TABLES + 4096 * k for k in range(13))
TABLES_END = ALL_DIRECTORY + 4096
TRAP_FLAG, ALIGNMENT_FLAG = 0x100, 0x40000
DEBUG = 1

CONFIGURATION = """plugin_ctrl: unmapped=1, biosdev=1, speaker=0, e1000=0, parallel=0, serial=0
cpu: model=tigerlake, count=1, ips=50000000, reset_on_triple_fault=0
memory: guest=32, host=32
romimage: file=/usr/share/bochs/BIOS-bochs-legacy
vgaromimage: file=/usr/share/bochs/VGABIOS-lgpl-latest
ata0-master: type=disk, path=disk, mode=flat, cylinders=0, heads=16, spt=63
boot: disk
port_e9_hack: enabled=1
log: log
panic: action=fatal
error: action=report
info: action=ignore
debug: action=ignore
display_library: term
"""
LINE = re.compile(r"[0-9a-f]{1,2}( [0-9a-f]+){5}( [0-9a-f]=[0-9a-f]+)*")


def tables():
    """The page tables. The text and the shadow area have no pages: each case plants its own."""
    memory = bytearray(TABLES_END - TABLES)

    def put(table, index, entry):
        struct.pack_into("<Q", memory, table - TABLES + 8 * index, entry & MASK)

    link = PRESENT | WRITABLE | USER
    for table, index, below in (
            (ROOT, 0, LOW_POINTERS), (ROOT, 256, KERNEL_POINTERS), (LOW_POINTERS, 0, LOW_0), (LOW_POINTERS, 1, LOW_1),
            (LOW_POINTERS, 8, LOW_8), (LOW_0, 2, TEXT_TABLE), (LOW_1, 511, STACK_TABLE), (LOW_8, 0, SHADOW_TABLE),
            (KERNEL_POINTERS, 0, KERNEL_DIRECTORY), (KERNEL_DIRECTORY, 0, KERNEL_TABLE)):
        put(table, index, below | link)
    put(ROOT, 511, ALL_POINTERS | PRESENT | WRITABLE)
    put(ALL_POINTERS, 0, ALL_DIRECTORY | PRESENT | WRITABLE)
    for index in range(16):
        put(ALL_DIRECTORY, index, index << 21 | 0x80 | PRESENT | WRITABLE)
    put(LOW_0, 0, 0x80 | PRESENT | WRITABLE)
    for page in range(STACK[1] - STACK[0] >> 12):
        put(STACK_TABLE, (STACK[0] >> 12 & 511) + page,
            STACK_PLACE + 4096 * page | link | ACCESSED | DIRTY | NO_EXECUTE)
    bits = PRESENT | ACCESSED | DIRTY | NO_EXECUTE
    put(KERNEL_TABLE, 0, KERNEL_PLACE | bits | WRITABLE)
    for page in range(2, 17, 2):
        put(KERNEL_TABLE, page, KERNEL_PLACE + 4096 * page | bits)
    return bytes(memory)


def place(address):
    """Where a word of the main stack or the shadow area is in memory."""
    if STACK[0] <= address < STACK[1]:
        return STACK_PLACE + address - STACK[0]
    assert SHADOW <= address < SHADOW + 4096 * SHADOW_PAGES, hex(address)
    return SHADOW_PLACE + address - SHADOW


def address(place_of_word):
    if place_of_word >= SHADOW_PLACE:
        return SHADOW + place_of_word - SHADOW_PLACE
    return STACK[0] + place_of_word - STACK_PLACE


def case_words(case):
    """A case as boot.asm reads it."""
    start = case.start
    text = case.text.ljust(len(case.text) + 7 & ~7, b"\0")
    assert len(text) <= 4096 * TEXT_PAGES
    planted = []
    for page in range(len(text) + 4095 >> 12):
        entry = TEXT_PLACE + 4096 * page | PRESENT | USER | ACCESSED
        planted += [TEXT_TABLE + 8 * (TEXT >> 12 & 511) + 8 * page, entry]
    for page in range(SHADOW_PAGES):
        entry = start.rights(SHADOW + 4096 * page)
        planted += [SHADOW_TABLE + 8 * page, entry and entry | SHADOW_PLACE + 4096 * page]
    for page in range(len(text) + 4095 >> 12, TEXT_PAGES):
        planted += [TEXT_TABLE + 8 * (TEXT >> 12 & 511) + 8 * page, 0]
    for where, value in start.words.items():
        planted += [place(where), value]
    flags = start.flags | TRAP_FLAG | ALIGNMENT_FLAG
    tail = [case.limit, start.ssp, *start.registers, start.rip, flags]
    words = [len(planted) // 2, *planted, *tail]
    return struct.pack("<Q", len(text) // 8) + text + struct.pack(f"<{len(words)}Q", *words)


def run(work, cases):
    """Runs the cases, and gives for each the lines of its traps and its fault, and its words by address."""
    data = b"".join(map(case_words, cases)) + struct.pack("<Q", MASK)
    sectors = len(data) + 511 >> 9
    values = dict(TABLES=TABLES, CASES=CASES, SECTORS=sectors, USER=TEXT_PLACE, TEXT=TEXT_PLACE, DUMP=STACK_PLACE,
                  END=KERNEL_PLACE, LOW_ENTRY=LOW_0, TOKEN=KERNEL + TOKEN, TOKEN_PLACE=KERNEL_PLACE + TOKEN)
    assert LOADED + 512 * sectors < 32 << 20
    defines = [f"-D{name}={value:#x}" for name, value in values.items()]
    subprocess.run(["nasm", "-f", "bin", *defines, "-o", work / "boot", HERE / "boot.asm"], check=True)
    with open(work / "disk", "wb") as disk:
        disk.write((work / "boot").read_bytes())
        disk.write(tables())
        disk.seek(512 * CASES)
        disk.write(data)
        disk.truncate((512 * CASES + len(data) + SPARE) // 516096 * 516096)
    (work / "configuration").write_text(CONFIGURATION)
    (work / "commands").write_text("c\n")
    command = ["bochs-bin", "-q", "-f", "configuration", "-rc", "commands"]
    with open(work / "printed", "wb") as printed, open(work / "errors", "wb") as errors:
        subprocess.run(command, cwd=work, stdin=subprocess.DEVNULL, stdout=printed, stderr=errors, timeout=100,
                       env={"TERM": "xterm", "PATH": "/usr/bin:/bin"})
    return read((work / "printed").read_text(errors="replace"))


def read(printed):
    results, lines, words, begun = [], [], {}, False
    for line in printed.split("\n"):
        begun = begun or bool(LINE.fullmatch(line))
        if not begun:
            continue
        if line == "end":
            return results
        if line == ".":
            results.append((lines, words))
            lines, words = [], {}
        elif line.startswith("w "):
            _, where, value = line.split()
            words[address(int(where, 16))] = int(value, 16)
        elif LINE.fullmatch(line):
            lines.append(line)
        elif line:
            raise SystemExit(f"bochs: a line that isn't boot.asm's: {line!r}")
    raise SystemExit(f"bochs: no end after {len(results)} cases")
