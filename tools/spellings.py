#!/usr/bin/env python3
"""Checks the comments of the table of spellings, in the code and in the definitions.

Each row of cet_decode/src/forms.rt has its bytes in a comment behind it, and the row's definition in
cet_isa/specs/Forms.antt has the same comment above it. The bytes are computed here from the row. What
they spell is checked nowhere, but has to be the same in both places. Run it anywhere.
"""

import re
import sys
from pathlib import Path

CRATES = Path(__file__).resolve().parent.parent / "crates"
ROW = re.compile(r"form!\((.*)\), // (.*)$")
PLACE = re.compile(r"\[.*?\]|\S+")
PLUS = {"plus_reg": "+r", "plus_op": "+op", "plus_cond": "+cc"}
IMMEDIATE = {"Absent": [], "Byte": ["ib"], "Word": ["iw"], "Dword": ["id"], "Qword": ["iq"]}


def byte_text(place):
    """The text of a byte in brackets, as of [plus_reg 0x50]; none for an empty place."""
    words = place.strip("[]").split()
    return [f"{int(words[-1], 16):02X}" + "".join(PLUS[word] for word in words[:-1])] if words else []


def modrm_text(place):
    """The text of a ModRM in brackets: its digit, or r."""
    words = place.strip("[]").split()
    return ["/" + (words[2] if len(words) == 3 else "r")] if words else []


def bytes_of(row):
    """The bytes of a row: prefixes, REX, bytes before the opcode, opcode, ModRM, immediate."""
    first, second, third, wide, escape, escape2, opcode, modrm, imm = PLACE.findall(row)[:9]
    rex = ["REX.W"] if wide == "Set" else []
    prefixes = byte_text(first) + byte_text(second) + byte_text(third)
    escapes = byte_text(escape) + byte_text(escape2)
    return " ".join(prefixes + rex + escapes + byte_text(opcode) + modrm_text(modrm) + IMMEDIATE[imm])


def main():
    code = (CRATES / "cet_decode/src/forms.rt").read_text().splitlines()
    rows = [match.groups() for match in map(ROW.search, code) if match]
    wrong = [f"forms.rt: {comment}: the row has {bytes_of(row)}" for row, comment in rows if comment.split("  ")[0] != bytes_of(row)]
    defined = re.findall(r"^-- (.*)\nabbrev pub \w+ : Form$", (CRATES / "cet_isa/specs/Forms.antt").read_text(), re.M)
    wrong += [f"Forms.antt: {there}: forms.rt has {here}" for (_, here), there in zip(rows, defined) if here != there]
    if not len(rows) == len(defined) == 76:
        wrong.append(f"{len(rows)} rows and {len(defined)} definitions with a comment, and not 76")
    for line in wrong:
        print(line)
    sys.exit(1 if wrong else 0)


if __name__ == "__main__":
    main()
