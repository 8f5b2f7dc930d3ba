#!/usr/bin/env python3
"""`write_cases.py FOLDER CETVM [COUNT]` writes the examples, the cases that are runs, and COUNT random programs (else
20), with the reports of the model, for a run before any proof: in crates/cetvm, `rt try --cases FOLDER` says of each
whether its output is as expected. CETVM, of an earlier build, assembles and lists the sources."""
import sys
from pathlib import Path

sys.dont_write_bytecode = True

from listing import build
from outcome import outcome
from programs import random_program
from texts import all_texts
from words import read


def main():
    folder, cetvm = Path(sys.argv[1]), sys.argv[2]
    count = int(sys.argv[3]) if len(sys.argv) > 3 else 20
    folder.mkdir(exist_ok=True)
    programs = [(text.name, text.source, [text.words]) for text in all_texts()]
    programs += [(f"random_{seed:04}", *random_program(seed)) for seed in range(count)]
    runs = 0
    for name, source, every in programs:
        image, program = build(cetvm, source)
        for number, words in enumerate(every):
            place = folder / f"{name}_{number}"
            place.write_bytes(image)
            place.with_suffix(".args").write_text("\n".join([*words, ""]))
            place.with_suffix(".stdout").write_text(outcome(program, read(words)).report())
            runs += 1
    print(f"{runs} runs in {folder}")


if __name__ == "__main__":
    main()
