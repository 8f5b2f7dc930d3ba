"""Sources of the examples and the cases, as far as the model knows their instructions, and what it says of their runs."""
from collections import namedtuple
from pathlib import Path

from guest import expected
from instructions import REGISTERS, at, do, encode, text
from model import TEXT

EXAMPLES = Path(__file__).resolve().parents[2] / "examples"
NARROW = [name + "d" if name[1:].isdigit() else "e" + name[1:] for name in REGISTERS]
ALONE = ("ret", "nop", "ud2", "syscall", "stc", "clc", "saveprevssp", "setssbsy")
Source = namedtuple("Source", "name text instructions records limit")


class Unknown(Exception):
    """An operand or an instruction that isn't read here."""


def number(word):
    return int(word, 0)


def memory(word):
    """`[base]`, `[base+number]` or `[base-number]`."""
    inside = word[1:-1]
    for sign in "+-":
        base, found, offset = inside.partition(sign)
        if found and base in REGISTERS:
            return at(REGISTERS.index(base), number(sign + offset))
    return at(REGISTERS.index(inside))


def move(left, right):
    if left in NARROW:
        return do("mov_number_32", NARROW.index(left), number=number(right))
    if left.startswith("["):
        return do("mov_store", REGISTERS.index(right), memory(left))
    register = REGISTERS.index(left)
    if right.startswith("["):
        return do("mov_load", register, memory(right))
    if right in REGISTERS:
        return do("mov_register", register, number=REGISTERS.index(right))
    return do("mov_number", register, number=number(right))


def instruction(line):
    """An instruction; the number of a call or a jump may be a label's name."""
    name, _, rest = line.partition(" ")
    words = [word.strip() for word in rest.split(",")] if rest else []
    if name in ALONE and not words:
        return do(name)
    if name == "mov":
        return move(*words)
    if name == "call" and words[0] in REGISTERS:
        return do("call_register", REGISTERS.index(words[0]))
    if name in ("call", "jmp") and words[0].startswith("rel "):
        return do(name, number=number(words[0][4:]))
    if name in ("call", "jmp"):
        return do(name, number=words[0])
    if name in ("incsspq", "rdsspq"):
        return do(name, REGISTERS.index(words[0]))
    if name in ("rstorssp", "clrssbsy"):
        return do(name, memory=memory(words[0]))
    if name in ("wrssq", "wrussq"):
        return do(name, REGISTERS.index(words[1]), memory(words[0]))
    if name == "push" and words[0] in REGISTERS:
        return do("push_register", REGISTERS.index(words[0]))
    if name == "push":
        return do("push_number", number=number(words[0]))
    if name == "pop":
        return do("pop", REGISTERS.index(words[0]))
    if name == "add" and words[0] in NARROW:
        return do("add_number", NARROW.index(words[0]), number=number(words[1]))
    raise Unknown(line)


def read_source(name, source, limit=100000):
    labels, items, address = {}, [], TEXT
    for line in source.split("\n"):
        line = line.split(";")[0].split("#")[0].strip()
        while ":" in line:
            label, _, line = line.partition(":")
            labels[label.strip()], line = address, line.strip()
        if not line:
            continue
        try:
            item = instruction(line)
        except (ValueError, IndexError) as error:
            raise Unknown(line) from error
        items.append((address, item))
        address += len(encode(item._replace(number=0) if isinstance(item.number, str) else item))
    instructions, code = {}, b""
    for address, item in items:
        if isinstance(item.number, str):
            item = item._replace(number=labels[item.number] - address - 5)
        instructions[address] = item
        code += encode(item)
    return Source(name, code, instructions, (), limit)


def listing(source):
    """The lines that `dis` writes."""
    lines = []
    for address, item in source.instructions.items():
        line = text(item)
        wide = item.name == "mov_number" and not -1 << 31 <= item.number < 1 << 31
        lines.append(f"{address:016x} {encode(item).hex()} {line.replace('mov', 'movabs', 1) if wide else line}")
    return "\n".join(lines) + "\n"


def case_source(path):
    """A case of examples/cases that is a run without options: its source and its report. Else nothing."""
    head, _, rest = path.read_text().partition("source:\n")
    source, _, report = rest.partition("output:\n")
    return (source, report) if head.startswith("words: run\n") and "patch:" not in head and "cut:" not in head else None


def check(built):
    """How many reports of the examples and cases the model has made, and the names of those that it has otherwise.
    Runs with other words than `run`, and those with instructions or services that the model or cetvm doesn't have, are
    passed over."""
    texts = {path.stem: (path.read_text(), path.with_suffix(".report").read_text())
             for path in EXAMPLES.glob("*.s")
             if path.with_suffix(".report").exists() and not path.with_suffix(".words").exists()}
    texts |= {path.stem: found for path in (EXAMPLES / "cases").glob("*.case") if (found := case_source(path))}
    made, wrong = 0, []
    for name, (source, report) in sorted(texts.items()):
        try:
            read = read_source(name, source)
            found = expected(read)[2]
        except (Unknown, KeyError):
            continue
        if not {item.name for item in read.instructions.values()} <= built:
            continue
        made += 1
        if found != report:
            wrong.append(name)
    return made, wrong
