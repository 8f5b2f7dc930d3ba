#!/usr/bin/env python3
"""Compares Bochs with the model, and cetvm with the model, as README.md says.

    check.py CETVM WORK [SEED]      CETVM: the program, or a name without a file; WORK: a scratch folder
"""
import os
import sys
import time
from pathlib import Path

import differences
import machine
import texts
import worked
from cases import all_cases
from compare import Totals, compare_bochs
from guest import compare_cetvm
from sequences import sequences
from services import services

# The instructions that cetvm runs; programs with others are for Bochs alone. `syscall` is map_shadow_stack, mmap or
# munmap, and in examples and cases also exit and exit_group.
BUILT = {
    "call", "call_register", "call_memory", "ret", "ret_number", "push_register", "push_number", "push_memory", "pop",
    "mov_number", "mov_number_32", "mov_register", "mov_load", "mov_store", "add_number", "stc", "clc", "nop", "jmp",
    "ud2", "incsspq", "rdsspq", "rstorssp", "saveprevssp", "wrssq", "wrussq", "syscall",
}
SEQUENCES, LENGTH, SERVICES = 300, 300, 100
# So many reports of examples and cases the model makes at least.
LEAST_TEXTS = 45


def gather(seed):
    """The cases for Bochs, and those for cetvm."""
    cases = [*all_cases(), *differences.examples(), *(case for case, _, _ in worked.programs())]
    cases += sequences(seed, SEQUENCES, LENGTH)
    mine = [case for case in cases if not case.planted and case.names() <= BUILT]
    return cases, [*mine, *services(seed, SERVICES)]


def main():
    cetvm, work = Path(sys.argv[1]).resolve(), Path(sys.argv[2]).resolve()
    seed = int(sys.argv[3]) if len(sys.argv) > 3 else time.time_ns() // 1000 % 1000000
    print(f"bochs: seed {seed}", flush=True)
    cases, mine = gather(seed)
    totals = Totals()
    for case, (lines, words) in zip(cases, machine.run(work, cases), strict=True):
        compare_bochs(case, lines, words, totals)
    if os.access(cetvm, os.X_OK):
        for case in mine:
            compare_cetvm(cetvm, case, totals)
    totals.print()
    wrong = [f"the model has other records of {name}" for name in worked.check()]
    wrong += [f"docs/differences.md has another example of {name}" for name in differences.missing()]
    made, others = texts.check(BUILT)
    wrong += [f"the model has another report of the example or case {name}" for name in others]
    if made < LEAST_TEXTS:
        wrong.append(f"the model makes only {made} reports of examples and cases")
    for line in wrong:
        print(f"bochs: {line}")
    print(f"bochs: {made} reports of examples and cases made by the model")
    print(f"bochs: {totals.reports} reports of cetvm with {totals.records} records, of {len(mine)} programs that it runs, "
          f"beside {len(cases)} cases of Bochs")
    sys.exit(bool(wrong) or totals.faulty())


if __name__ == "__main__":
    main()
