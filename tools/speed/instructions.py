#!/usr/bin/env python3
"""Counts the host instructions that `cetvm run` takes for a record, the full report included.

For each guest it runs 1,000 and 2,000 turns under valgrind, whose count doesn't vary with the load, and
prints the difference of the counts by that of the records. The first argument may name another program
than the one that `rt ci` has left. It is no test: no figure makes it fail.
"""
import os
import re
import subprocess
import sys
import tempfile

HERE = os.path.dirname(os.path.abspath(__file__))
CETVM = sys.argv[1] if len(sys.argv) > 1 else os.path.join(HERE, "../../crates/cetvm/out/cetvm")
GUESTS = ("loop", "mix")


def counts(guest, turns, work):
    """The host instructions and the records of one run."""
    with open(os.path.join(HERE, f"{guest}.s.in")) as source:
        text = source.read().replace("TURNS", str(turns)).encode()
    image = subprocess.run([CETVM, "asm"], input=text, stdout=subprocess.PIPE, check=True).stdout
    valgrind = ["valgrind", "--tool=callgrind", f"--callgrind-out-file={work}/callgrind.out"]
    ran = subprocess.run([*valgrind, CETVM, "run"], input=image, capture_output=True, check=True)
    instructions = re.search(rb"Collected : (\d+)", ran.stderr).group(1)
    records = re.search(rb"thread 0 records (\d+)", ran.stdout).group(1)
    return int(instructions), int(records)


def main():
    with tempfile.TemporaryDirectory() as work:
        for guest in GUESTS:
            few, more = (counts(guest, turns, work) for turns in (1000, 2000))
            print(f"{guest}: {(more[0] - few[0]) / (more[1] - few[1]):,.0f} host instructions a record")


if __name__ == "__main__":
    main()
