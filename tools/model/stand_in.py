#!/usr/bin/env python3
"""The commands of `cetvm` without `cetvm`: `stand_in.py WORDS..` is `cetvm WORDS..` on the same input, where GNU as and
ld assemble, GNU objdump lists and the model runs. So the examples and the scripts that run them are tried before any
proof: `examples/run.sh "$(realpath tools/model/stand_in.py)"`. A faulty text has no line and rule here, and only what is
no ELF file is refused."""
import subprocess
import sys
from pathlib import Path

sys.dont_write_bytecode = True

from gnu import assembled, listed
from listing import Program, Unknown
from outcome import outcome, status
from texts import bench, help_text, runtime
from usage import first_faulty
from words import read

FAULTY_TEXT = 5
MAGIC = b"\x7fELF"
HEADER = 64


def told(code, line):
    if line:
        print(line, file=sys.stderr)
    return code


def with_runtime(source):
    return source + "\n" + runtime()


def made(source):
    sys.stdout.buffer.write(assembled(source))
    return 0


def reported(words, image):
    run = outcome(Program(image, listed(image)), read(words))
    sys.stdout.write(run.report())
    return told(*status(run))


def refused(data):
    """The place at which a file breaks the first rule, or nothing."""
    wrong = [place for place, byte in enumerate(MAGIC) if data[place:place + 1] not in (b"", bytes([byte]))]
    return wrong[0] if wrong else len(data) if len(data) < HEADER else None


def benched(word):
    image = assembled(with_runtime(bench(word)))
    run = outcome(Program(image, listed(image)), read(["run"]))
    records = sum(len(thread.records) for thread in run.threads)
    print(f"bench {int(word, 0)} records {records} process {run.process()}")
    return told(*status(run))


def answered(words):
    faulty = first_faulty(words)
    if faulty:
        return told(1, f"cetvm: usage: word {faulty}\n{help_text().rstrip()}")
    if words[0] == "bench":
        return benched(words[1])
    data = sys.stdin.buffer.read()
    if words[0] == "asm":
        return made(with_runtime(data.decode()) if words[1:] else data.decode())
    place = refused(data)
    if place is not None:
        return told(4, f"cetvm: refused: rule 1 at {place}")
    if words[0] == "dis":
        return print("".join(line + "\n" for line in listed(data)), end="") or 0
    return print("accepted") or 0 if words[0] == "check" else reported(words, data)


def main():
    try:
        sys.exit(answered(sys.argv[1:]))
    except (Unknown, UnicodeDecodeError) as error:
        sys.exit(told(FAULTY_TEXT, f"stand_in: {error}"))


if __name__ == "__main__":
    main()
