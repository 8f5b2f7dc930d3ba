#!/usr/bin/env python3
"""`compare.py CETVM [COUNT [SEED]]` compares what the model and the program CETVM print, byte for byte: for each
example and each case that is a run, and for COUNT random programs (else 20), each by round robin, by a list and by a
generator's numbers. SEED, else 0, is the number of the first random program."""
import os
import sys
from itertools import zip_longest

sys.dont_write_bytecode = True

from listing import Unknown, build, run
from outcome import outcome, status
from programs import random_program
from texts import all_texts
from words import read

LEAST = 60


class Totals:
    def __init__(self):
        self.runs, self.records, self.unknown, self.different = 0, 0, [], []

    def compare(self, cetvm, name, source, every):
        try:
            image, program = build(cetvm, source)
            for words in every:
                self.compare_run(cetvm, f"{name} by {' '.join(words)}", image, outcome(program, read(words)), words)
        except Unknown as error:
            self.unknown.append(f"{name}: {error}")

    def compare_run(self, cetvm, name, image, model, words):
        code, line = status(model)
        found = run(cetvm, words, image)
        self.runs += 1
        self.records += sum(len(thread.records) for thread in model.threads)
        wanted = model.report().splitlines() + [f"status {code} {line}"]
        given = found.stdout.decode(errors="replace").splitlines()
        given.append(f"status {found.returncode} {found.stderr.decode(errors='replace').rstrip()}")
        if wanted == given and model.report().encode() == found.stdout:
            return
        for place, (left, right) in enumerate(zip_longest(wanted, given, fillvalue="nothing")):
            if left != right:
                self.different.append(f"{name}: line {place + 1}\n    model {left}\n    cetvm {right}")
                return
        self.different.append(f"{name}: the last newline")


def main():
    if len(sys.argv) < 2 or not os.access(sys.argv[1], os.X_OK):
        sys.exit("model: no program to compare with")
    cetvm = sys.argv[1]
    count = int(sys.argv[2]) if len(sys.argv) > 2 else 20
    first = int(sys.argv[3]) if len(sys.argv) > 3 else 0
    totals = Totals()
    for text in all_texts():
        totals.compare(cetvm, text.name, text.source, [text.words])
    texts = totals.runs
    for seed in range(first, first + count):
        totals.compare(cetvm, f"random program {seed}", *random_program(seed))
    for line in totals.unknown:
        print(f"model: passed over: {line}")
    for line in totals.different[:20]:
        print(f"model: {line}")
    print(f"model: {totals.runs} runs with {totals.records} records, {texts} of them of examples and cases; "
          f"{len(totals.different)} differ")
    sys.exit(bool(totals.different) or texts < LEAST or totals.runs < texts + 3 * count)


if __name__ == "__main__":
    main()
