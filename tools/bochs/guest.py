"""cetvm with one case: its image, and the report that the model says it prints."""
import struct
import subprocess

from instructions import MASK
from model import EXIT, FIRST_REGION, TEXT, Fault, Machine


def image(text):
    """The image that `cetvm asm` writes for a text without data."""
    ident = b"\x7fELF\x02\x01\x01".ljust(16, b"\0")
    header = ident + struct.pack("<HHIQQQIHHHHHH", 2, 62, 1, TEXT, 64, 0, 0, 64, 56, 2, 0, 0, 0)
    load = struct.pack("<IIQQQQQQ", 1, 5, 4096, TEXT, TEXT, len(text), len(text), 4096)
    property_header = struct.pack("<IIQQQQQQ", 0x6474E553, 4, 232, 0, 0, 32, 32, 8)
    note = struct.pack("<III4sIIII", 4, 16, 5, b"GNU\0", 0xC0000002, 4, 2, 0)
    return ((header + load + property_header).ljust(232, b"\0") + note).ljust(4096, b"\0") + text


class Stacks:
    """Who holds which shadow stack, by the records alone."""

    def __init__(self):
        self.regions, self.current = [FIRST_REGION], 0
        self.parked, self.left = {}, {}

    def number(self, address):
        for number, (start, end) in enumerate(self.regions):
            if start <= address < end:
                return number
        raise KeyError(hex(address))

    def follow(self, record, before, words):
        """A record, SSP before it, and the words after it, by which a new stack has a token or none."""
        name, _, a, b = record
        if name == "claim":
            if words.get(a + b - 8) == a + b | 1:
                self.parked[len(self.regions)] = a + b - 8
            self.regions.append((a, a + (b + 4095 & ~4095)))
        elif name == "sys" and a == EXIT:
            self.current = None
        elif name == "take":
            old, self.current = self.current, self.number(a)
            del self.parked[self.current]
            self.left[old] = (b, self.current, a)
        elif name == "save":
            number = self.number(a)
            del self.left[number]
            self.parked[number] = a
        elif name in ("ret", "raise"):
            after = b if name == "ret" else a
            gone = [old for old, (_, new, place) in self.left.items() if new == self.current and before <= place < after]
            for old in gone:
                del self.left[old]

    def in_view(self, number):
        while number in self.left:
            number = self.left[number][1]
        return number == self.current or number in self.parked

    def lines(self, machine):
        for number, (start, end) in enumerate(self.regions):
            if number == self.current:
                holder, newest = "current 0", machine.ssp
            elif number in self.parked:
                holder, newest = "parked", self.parked[number] + 8
            elif number in self.left and self.in_view(number):
                holder, newest = "left", self.left[number][0]
            else:
                holder, newest = "lost", end
            yield f"region {start:016x} {end:016x} {holder}"
            for address in range(newest, end, 8):
                yield "  " + entry_text(machine.words.get(address, 0))


def entry_text(word):
    if word == 0:
        return "blank"
    if word >> 63:
        return f"frame {word & MASK >> 1:016x}"
    return f"ret {word:016x}" if word < 1 << 32 else f"prev {word & ~3:016x}"


def expected(case):
    """The options of `run`, its exit status and its report."""
    machine, stacks, records = Machine(case.text, case.instructions), Stacks(), []
    most, killed = len(case.records) + case.limit, None
    while len(records) < most and killed is None and machine.ended is None:
        rip, ssp = machine.rip, machine.ssp
        try:
            record = machine.step()
            stacks.follow(record, ssp, machine.words)
        except Fault as fault:
            record = (fault.name, fault.code, fault.a, fault.b)
            killed = 4 if fault.name == "#UD" else 11
        records.append((rip, record))
    if killed is not None:
        records.append((machine.rip, ("kill", 0, killed, 0)))
    end, last, status = ("limit", "limit 0", 8) if killed is None else ("group", f"killed {killed}", 7)
    if machine.ended:
        end, last, status = machine.ended[0], f"exit {machine.ended[1]}", 0
        end += f" {machine.ended[1]}" if end == "exit" else ""
    lines = ["cetvm report 1", f"thread 0 records {len(records)} {end}"]
    lines += [f"0 {name} {rip:016x} {code} {a:016x} {b:016x}" for rip, (name, code, a, b) in records]
    lines += [*stacks.lines(machine), f"process {last}"]
    return ["--limit", str(most)] if status == 8 else [], status, "\n".join(lines) + "\n"


def compare_cetvm(cetvm, case, totals):
    options, status, wanted = expected(case)
    ran = subprocess.run([cetvm, "run", *options], input=image(case.text), capture_output=True, timeout=60)
    found = ran.stdout.decode(errors="replace")
    totals.reports += 1
    totals.records += wanted.count("\n0 ")
    if found == wanted and ran.returncode == status:
        return
    for left, right in zip(wanted.split("\n"), found.split("\n") + [f"end, status {ran.returncode}"]):
        if left != right:
            totals.shown.append(f"{case.name}\n    model {left}\n    cetvm {right}")
            return
    totals.shown.append(f"{case.name}\n    model: status {status}\n    cetvm: status {ran.returncode}")
