#!/usr/bin/env python3
"""Runs a source on the model: `run.py WORDS.. < source.s` prints the report that `cetvm WORDS..` prints of it, and ends
by the same status and line. The program that assembles the source is the one that `rt ci` has left, or the one that the
variable CETVM names."""
import os
import sys
from pathlib import Path

sys.dont_write_bytecode = True

from listing import Unknown, build
from outcome import outcome, status
from words import Faulty, read

BUILT = Path(__file__).resolve().parents[2] / "crates/cetvm/out/cetvm"


def main():
    try:
        settings = read(sys.argv[1:])
        program = build(os.environ.get("CETVM", BUILT), sys.stdin.read())[1]
        run = outcome(program, settings)
    except (Faulty, Unknown) as error:
        sys.exit(f"run: {type(error).__name__.lower()}: {error}")
    sys.stdout.write(run.report())
    code, line = status(run)
    if line:
        print(line, file=sys.stderr)
    sys.exit(code)


if __name__ == "__main__":
    main()
