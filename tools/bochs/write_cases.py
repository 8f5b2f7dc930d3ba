#!/usr/bin/env python3
"""Writes the programs for cetvm, with the reports of the model, for a run before any proof: in crates/cetvm,
`rt try --cases FOLDER` says of each whether its output is as expected.

    write_cases.py FOLDER [SEED]
"""
import sys
from pathlib import Path

from check import gather
from guest import expected, image


def main():
    folder = Path(sys.argv[1])
    folder.mkdir(exist_ok=True)
    _, cases = gather(int(sys.argv[2]) if len(sys.argv) > 2 else 0)
    for number, case in enumerate(cases):
        options, _, report = expected(case)
        place = folder / f"{number:04}"
        place.write_bytes(image(case.text))
        place.with_suffix(".args").write_text("\n".join(["run", *options, ""]))
        place.with_suffix(".stdout").write_text(report)
    print(f"{len(cases)} programs in {folder}")


main()
