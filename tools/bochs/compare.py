"""Compares what Bochs printed for a case with the model, state by state."""
from collections import Counter

from differences import DIFFERENCES
from instructions import CET, REGISTERS, text
from machine import DEBUG
from model import AF, STATUS, Fault

LEAST = 20000

VECTORS = {"#DB": DEBUG, "#UD": 6, "#SS": 12, "#GP": 13, "#PF": 14, "#AC": 17, "#CP": 21}
NAMES = {vector: name for name, vector in VECTORS.items()}


class Totals:
    def __init__(self):
        self.instructions, self.cet, self.faults, self.words = 0, Counter(), Counter(), 0
        self.reports, self.records = 0, 0
        self.met, self.shown = Counter(), []

    def differ(self, case, rip, expected, seen):
        instruction = case.instructions.get(rip)
        line = text(instruction) if instruction else "no instruction"
        self.shown.append(f"{case.name}: {rip:016x} {line}\n    {expected}\n    {seen}")

    def faulty(self):
        """Whether something differs, or not enough was compared."""
        return bool(self.shown) or sum(self.cet.values()) < LEAST or bool(DIFFERENCES.keys() - self.met.keys())

    def print(self):
        cet = ", ".join(f"{name} {count}" for name, count in self.cet.most_common())
        faults = ", ".join(f"{name} {count}" for name, count in self.faults.most_common())
        print(f"bochs: {self.instructions} instructions and faults, {sum(self.cet.values())} of them of CET ({cet})")
        print(f"bochs: {sum(self.faults.values())} faults ({faults}), {self.words} words at the ends")
        for name, sentence in DIFFERENCES.items():
            print(f"bochs: {name}, in {self.met[name]} cases: {sentence}")
        for difference in self.shown[:20]:
            print(f"bochs: {difference}")
        print(f"bochs: {len(self.shown)} other differences")


def state_text(name, code, address, rip, flags, ssp, registers):
    where = f" at {address:x}" if name == "#PF" else ""
    changed = " ".join(f"{REGISTERS[k]}={value:x}" for k, value in enumerate(registers) if value)
    return f"{name} {code}{where} rip={rip:x} flags={flags & STATUS:x} ssp={ssp:x} {changed}"


def compare_bochs(case, lines, words, totals):
    model = case.start.copy(bochs=True)
    seen = list(model.registers)
    last = None
    for line in lines:
        fields = line.split(" ")
        vector, code, cr2, rip, flags, ssp = (int(field, 16) for field in fields[:6])
        for field in fields[6:]:
            register, value = field.split("=")
            seen[int(register, 16)] = int(value, 16)
        at = model.rip
        name, wanted, where = "#DB", 0, 0
        try:
            model.step()
        except Fault as fault:
            name, wanted, where = fault.name, fault.code, fault.a
        except KeyError:
            name = "no instruction"
        wanted = (name, wanted, where if name == "#PF" else 0, model.rip, model.flags & STATUS, model.ssp, model.registers)
        found = (NAMES.get(vector, f"vector {vector}"), code, cr2 if vector == 14 else 0, rip, flags & STATUS, ssp, seen)
        if wanted != found:
            totals.differ(case, at, "model " + state_text(*wanted), "Bochs " + state_text(*found))
            return
        if model.flags & AF:
            model.met.add("adjust_flag")
        totals.instructions += 1
        operation = case.instructions[at].name if at in case.instructions else "fetch"
        if operation in CET:
            totals.cet[operation] += 1
        if name != "#DB":
            totals.faults[f"{name} {wanted[1]}"] += 1
        last = name
    if last == "#DB" and len(lines) != case.limit:
        totals.differ(case, model.rip, "model: goes on", f"Bochs: ends after {len(lines)}")
        return
    wanted = {where: value for where, value in model.words.items() if value}
    for where in sorted(set(wanted) | set(words)):
        if wanted.get(where, 0) != words.get(where, 0):
            totals.differ(case, model.rip, f"model: {wanted.get(where, 0):x} at {where:x}",
                          f"Bochs: {words.get(where, 0):x} at {where:x}")
            return
    totals.words += len(wanted)
    totals.met.update(model.met)
