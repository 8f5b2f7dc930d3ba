#!/usr/bin/env python3
"""`stated.py CETVM` runs the model on the programs that were worked out by hand, and on each example and each case that
is a run, and compares with what is stated of them: the reports, and of the examples the lines that were worked out by
hand. CETVM assembles and lists the sources, and runs none."""
import os
import sys

sys.dont_write_bytecode = True

from listing import Unknown, build
from outcome import outcome, status
from texts import all_texts
from words import read
from worked import ABSENT, EXAMPLES, ROWS, missing


def worked(cetvm):
    for row in ROWS:
        run = outcome(build(cetvm, row.source)[1], read(row.words.split()))
        for line in missing(row, run.report()):
            yield f"{row.name}: the model has no {line}"


def examples():
    """What the reports beside the examples lack of the lines that were worked out."""
    reports = {text.name: text.report for text in all_texts() if text.example}
    for name, stated in EXAMPLES.items():
        for line in missing(stated, reports[name]):
            yield f"{name}.report has no {line}"
    for name, words in ABSENT.items():
        if words in reports[name]:
            yield f"{name}.report has{words}"


def texts(cetvm):
    """What differs of the examples and cases, and how many were run."""
    made, wrong = 0, []
    for text in all_texts():
        try:
            run = outcome(build(cetvm, text.source)[1], read(text.words))
        except Unknown as error:
            print(f"model: passed over: {text.name}: {error}")
            continue
        made += 1
        found = " ".join(map(str, status(run))).rstrip()
        if found != text.status or text.report is not None and run.report() != text.report:
            wrong.append(f"{text.name} is stated otherwise")
    return made, wrong


def main():
    if len(sys.argv) < 2 or not os.access(sys.argv[1], os.X_OK):
        sys.exit("model: no program that assembles")
    made, wrong = texts(sys.argv[1])
    wrong += [*worked(sys.argv[1]), *examples()]
    for line in wrong:
        print(f"model: {line}")
    print(f"model: {len(ROWS) + len(EXAMPLES)} programs worked out by hand, {made} examples and cases; "
          f"{len(wrong)} lines or reports differ")
    sys.exit(bool(wrong))


if __name__ == "__main__":
    main()
