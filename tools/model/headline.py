#!/usr/bin/env python3
"""`headline.py CETVM [COUNT [TURNS]]` runs each example and each case in which a thread is born under `--mix` 0 to
COUNT - 1 (else 32) and by `smp` on 2, 4 and 16 workers, and the races of RACES under all lists of TURNS turns (else 6)
of their two threads from there on. It reads from each report alone that the headline holds of it: each `ret` goes to
where the newest open call of its shadow stack was to return, or, by an entry that is no call, to no code; each token is
taken by one thread; no stack is current on two threads; and the stacks shown are those of the records' story. It is no
part of a proof."""
import os
import sys
from itertools import product

sys.dont_write_bytecode = True

from listing import build, run
from story import Wrong, told
from texts import all_texts

LEAST = 3
BIRTH = " born "
WORKERS = (2, 4, 16)
# Threads are born in it, although its report is one of last records.
LAST = "four_threads_of_contexts"
# Of an example: the turns up to the one before the second thread may matter, as a schedule's item.
RACES = {"token_race": "0*41", "busy_gate": "0*21"}


class Totals:
    def __init__(self, cetvm):
        self.cetvm, self.runs, self.returns, self.takes, self.wrong = cetvm, 0, 0, 0, []

    def check(self, name, image, program, words):
        found = run(self.cetvm, words, image)
        self.runs += 1
        try:
            story = told(found.stdout.decode(), program)
            self.returns, self.takes = self.returns + story.returns, self.takes + story.takes
        except (Wrong, KeyError, ValueError, IndexError) as error:
            self.wrong.append(f"{name} by {' '.join(words)}: {error}")


def without_plan(words):
    """The words behind the command, without a schedule, and with full traces."""
    kept, rest = [], list(words[1:])
    while rest:
        word = rest.pop(0)
        if word.startswith(("--schedule", "--mix", "--trace")):
            rest = rest if "=" in word else rest[1:]
        else:
            kept.append(word)
    return kept


def check_text(totals, text, count, turns):
    image, program = build(totals.cetvm, text.source)
    common = ["replay", *without_plan(text.words)]
    for number in range(count):
        totals.check(text.name, image, program, [*common, "--mix", str(number)])
    for workers in WORKERS:
        totals.check(text.name, image, program, ["smp", *common[1:], "--workers", str(workers)])
    if text.name in RACES:
        for order in product("01", repeat=turns):
            totals.check(text.name, image, program, [*common, "--schedule", ",".join((RACES[text.name], *order))])


def main():
    if len(sys.argv) < 2 or not os.access(sys.argv[1], os.X_OK):
        sys.exit("headline: no program to run")
    count = int(sys.argv[2]) if len(sys.argv) > 2 else 32
    turns = int(sys.argv[3]) if len(sys.argv) > 3 else 6
    totals = Totals(sys.argv[1])
    texts = [text for text in all_texts() if text.name == LAST or text.report is not None and BIRTH in text.report]
    for text in texts:
        check_text(totals, text, count, turns)
    for line in totals.wrong[:20]:
        print(f"headline: {line}")
    print(f"headline: {totals.runs} runs of {len(texts)} programs, {totals.returns} returns, {totals.takes} restores; "
          f"{len(totals.wrong)} are otherwise")
    missing = RACES.keys() - {text.name for text in texts}
    sys.exit(bool(totals.wrong or missing) or len(texts) < LEAST or not totals.returns or not totals.takes)


if __name__ == "__main__":
    main()
