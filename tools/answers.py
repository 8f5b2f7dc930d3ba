#!/usr/bin/env python3
"""Runs the examples in the tables of docs/answers.md, and compares each with the answer in the first column. The page
says how the examples are written. Then it looks whether the page has each exit status, each rule of the assembler and
of the loader, each record of docs/report.md and each kernel call of docs/machine.md.

    tools/answers.py [CETVM]

CETVM, else the program that `rt ci` has left, is the program that runs them."""
import errno
import os
import re
import subprocess
import sys
import tempfile
from collections import namedtuple
from pathlib import Path

TOP = Path(__file__).resolve().parents[1]
BUILT = TOP / "crates/cetvm/out/cetvm"
PAGE = TOP / "docs/answers.md"
IMAGE = TOP / "crates/cetvm/stdin"
# Columns of examples, by their heads.
KINDS = ("command", "words", "text", "change", "program", "arguments")
ARGUMENTS = ("rdi", "rsi", "rdx", "r10")
SPAN = re.compile(r"`([^`]+)`")
# An address or a value in a report.
DIGITS = re.compile(r"[0-9a-f]{16}")
SECONDS = 300

Row = namedtuple("Row", "place section kind answers examples ends")
Answer = namedtuple("Answer", "status line output")


class Faulty(Exception):
    """The page isn't written as it should be."""


def cells(line):
    return [cell.strip() for cell in line.strip().strip("|").split(" | ")]


def row(place, section, heads, found):
    if len(found) != len(heads):
        raise Faulty(f"line {place}: the row has {len(found)} cells, and its table {len(heads)}")
    named = dict(zip(heads, found))
    kind = next(head for head in heads if head in KINDS)
    answers, examples, ends = named[heads[0]], SPAN.findall(named[kind]), SPAN.findall(named.get("ends", ""))
    if not SPAN.search(answers) or not examples or kind == "program" and not ends:
        raise Faulty(f"line {place}: the row has no answer, no example or no end")
    return Row(place, section, kind, answers, examples, ends)


def rows(page):
    """The rows of each table that has a column of examples."""
    section, heads = "", None
    for place, line in enumerate(page.splitlines(), 1):
        if line.startswith("#"):
            section = line.lstrip("# ")
        if not line.startswith("|"):
            heads = None
        elif heads is None:
            heads = cells(line)
        elif not line.startswith("|--") and set(heads) & set(KINDS):
            yield row(place, section, heads, cells(line))


def behind(page):
    """The text that stands behind the program of each kernel call."""
    found = re.search(r"^```asm\n(.*?)^```$", page, re.MULTILINE | re.DOTALL)
    if not found:
        raise Faulty("there is no block `asm`")
    return found[1]


class Machine:
    """The program, with a folder for its files."""

    def __init__(self, cetvm, work):
        self.cetvm, self.work = cetvm, work
        (work / "cetvm").symlink_to(cetvm)

    def answer(self, words, data=b""):
        done = subprocess.run([self.cetvm, *words], input=data, capture_output=True, timeout=SECONDS)
        return Answer(done.returncode, done.stderr.decode().rstrip("\n"), done.stdout)

    def shell(self, command):
        environment = dict(os.environ, PATH=f"{self.work}:{os.environ['PATH']}")
        done = subprocess.run(["sh", "-c", command], cwd=TOP, env=environment, stdin=subprocess.DEVNULL,
                              capture_output=True, timeout=SECONDS)
        return Answer(done.returncode, done.stderr.decode().rstrip("\n"), done.stdout)

    def program(self, source, words):
        """The answer to a run of a source."""
        made = self.answer(["asm"], source)
        return self.answer(words, made.output) if made.status == 0 else made


def source(example):
    """An example in a line as a text, ` / ` standing between two lines and `\\xHH` for a byte."""
    text = example.replace(" / ", "\n") + "\n"
    return re.sub(rb"\\x([0-9a-f]{2})", lambda found: bytes.fromhex(found[1].decode()), text.encode())


def short(line):
    """A line of a report without the leading zeros of its addresses and values."""
    return " ".join(word.lstrip("0") or "0" if DIGITS.fullmatch(word) else word for word in line.split())


def shown(answer):
    return f"{answer.status} {answer.line.splitlines()[0] if answer.line else ''}".rstrip()


def told(wanted, answer):
    """What differs between the status and line wanted and those of an answer."""
    if wanted != shown(answer):
        yield f"gives `{shown(answer)}`, and not `{wanted}`"


def of_command(machine, row, _):
    yield from told(SPAN.findall(row.answers)[0], machine.shell(row.examples[0]))


def of_words(machine, row, _):
    for example in row.examples:
        answer = machine.answer(example.split() if example != "none" else [])
        yield from told(f"1 cetvm: usage: {SPAN.findall(row.answers)[0]}", answer)
        if answer.output:
            yield "writes something"


def of_text(machine, row, _):
    for example in row.examples:
        answer = machine.answer(["asm"], source(example))
        yield from told(f"5 cetvm: {SPAN.findall(row.answers)[0]}", answer)
        if answer.output:
            yield "writes something"


def changed(image, change):
    for part in change.split(" "):
        place, bytes_ = part.split("=")
        if place == "size":
            image = image[:int(bytes_)]
        else:
            new = bytes(int(byte) for byte in bytes_.split(","))
            image = image[:int(place)] + new + image[int(place) + len(new):]
    return image


def of_change(machine, row, _):
    for example in row.examples:
        answer = machine.answer(["check"], changed(IMAGE.read_bytes(), example))
        yield from told(f"4 cetvm: refused: {SPAN.findall(row.answers)[0]}", answer)


def of_program(machine, row, _):
    example, words = row.examples[0], row.examples[1] if len(row.examples) > 1 else "run"
    answer = machine.program(source(example), words.split())
    yield from told(row.ends[0], answer)
    lines = [short(line) for line in answer.output.decode().splitlines()]
    for record in SPAN.findall(row.answers):
        if record not in lines:
            yield f"has no `{record}`"


def calling(example, number):
    """The program of an example that is the arguments of a kernel call, or a program already."""
    if "syscall" in example:
        return source(example)
    lines = [f"mov {register}, {value}" for register, value in zip(ARGUMENTS, example.split(", "))]
    return source(" / ".join([*lines, f"mov eax, {number}", "syscall"]))


def of_arguments(machine, row, text):
    number = int(row.section.split()[0])
    result = SPAN.findall(row.answers)[0]
    name = re.search(r"\bE[A-Z]+\b", row.answers)
    if name and int(result, 16) != 2 ** 64 - getattr(errno, name[0]):
        yield f"is not {name[0]}"
    for example in row.examples:
        answer = machine.program(calling(example, number) + text.encode(), ["run"])
        yield from told("7 cetvm: killed by 4", answer)
        calls = [short(line).split(" ") for line in answer.output.decode().splitlines() if line.startswith("0 sys ")]
        if not calls or calls[-1][4:] != [f"{number:x}", result]:
            yield f"ends with {calls[-1:]}, and not with the result {result} of {number}"


CHECKS = {"command": of_command, "words": of_words, "text": of_text, "change": of_change, "program": of_program,
          "arguments": of_arguments}


def missing(found, page):
    """What the page owes an example and has none of."""
    answers = {kind: [row.answers for row in found if row.kind == kind] for kind in KINDS}
    for status in range(10):
        if not any(re.match(rf"`{status}\b", text) for text in answers["command"]):
            yield f"exit status {status}"
    for kind, most in (("text", 9), ("change", 14)):
        for rule in range(1, most + 1):
            if not any(re.search(rf"rule {rule}\b", text) for text in answers[kind]):
                yield f"rule {rule} of the {kind}"
    report = (TOP / "docs/report.md").read_text()
    listed = set(re.findall(r"^\| `([a-z]+)`: ", report, re.MULTILINE)) | {"kill", "#UD", "#GP", "#AC", "#PF", "#CP"}
    for name in sorted(listed):
        if not any(f" {name} " in text for text in answers["program"]):
            yield f"record {name}"
    machine = (TOP / "docs/machine.md").read_text()
    calls = machine.split("## Kernel calls")[1].split("\n### ")[0]
    for number in re.findall(r"^\| (\d+) \| \w+ [(|]", calls, re.MULTILINE):
        if not re.search(rf"^#+ {number} ", page, re.MULTILINE) and f"({number})" not in page:
            yield f"kernel call {number}"


def differences(cetvm, page):
    """How many examples and rows there are, and what differs."""
    found, text = list(rows(page)), behind(page)
    wrong = [f"the page lacks {name}" for name in missing(found, page)]
    with tempfile.TemporaryDirectory() as work:
        machine = Machine(cetvm, Path(work))
        for one in found:
            wrong += [f"line {one.place}: `{one.examples[0]}` {said}" for said in CHECKS[one.kind](machine, one, text)]
    return sum(len(one.examples) for one in found), len(found), wrong


def main():
    cetvm = Path(sys.argv[1] if len(sys.argv) > 1 else BUILT).resolve()
    if not os.access(cetvm, os.X_OK):
        sys.exit(f"answers: no program at {cetvm}")
    try:
        examples, count, wrong = differences(cetvm, PAGE.read_text())
    except (Faulty, OSError, ValueError, subprocess.TimeoutExpired) as error:
        sys.exit(f"answers: {error}")
    for line in wrong:
        print(f"answers: {line}")
    print(f"answers: {examples} examples in {count} rows, {len(wrong)} answers differ")
    sys.exit(bool(wrong))


if __name__ == "__main__":
    main()
