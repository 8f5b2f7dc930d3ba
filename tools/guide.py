#!/usr/bin/env python3
"""Runs the commands of README.md, docs/guide.md and docs/differences.md, one block `sh` after the other, and compares
what each prints with the block `text` behind it: its standard output, then its standard error. A line `..` there stands
for any lines. A block without such a quote has to end with status 0.

    tools/guide.py [CETVM [DOCUMENT..]]

CETVM, else the program that `rt ci` has left, is `cetvm` in the commands. They run at the top of the clone, and their
`/tmp/` is a folder that is removed at the end."""
import os
import re
import subprocess
import sys
import tempfile
from pathlib import Path

TOP = Path(__file__).resolve().parents[1]
BUILT = TOP / "crates/cetvm/out/cetvm"
DOCUMENTS = ("README.md", "docs/guide.md", "docs/differences.md")
FENCE = re.compile(r"^```(\w*)\n(.*?)^```$", re.MULTILINE | re.DOTALL)
ANY = ".."
SECONDS = 300


class Faulty(Exception):
    """A document isn't written as it should be."""


def steps(document):
    """Each block of commands, with its line in the document and the block of text that quotes its output, or None."""
    found = []
    for fence in FENCE.finditer(document):
        kind, text = fence.groups()
        if kind == "sh":
            found.append([document.count("\n", 0, fence.start()) + 2, text, None])
        elif kind == "text" and found and found[-1][2] is None:
            found[-1][2] = text
        elif kind:
            raise Faulty(f"line {document.count(chr(10), 0, fence.start()) + 1}: a block `{kind}` with no command")
    return found


def begins(lines, part):
    return lines[:len(part)] == part


def agrees(quoted, lines):
    """Whether the lines are those quoted, `..` being any lines."""
    if ANY not in quoted:
        return quoted == lines
    place = quoted.index(ANY)
    if not begins(lines, quoted[:place]):
        return False
    rest = quoted[place + 1:]
    return any(agrees(rest, lines[at:]) for at in range(place, len(lines) + 1))


def play(commands, work):
    """What the commands print, and their status."""
    commands = commands.replace("/tmp/", f"{work}/")
    environment = dict(os.environ, PATH=f"{work}/bin:{os.environ['PATH']}", LC_ALL="C")
    done = subprocess.run(["sh", "-c", commands], cwd=TOP, env=environment, stdin=subprocess.DEVNULL,
                          capture_output=True, text=True, timeout=SECONDS)
    return done.stdout.splitlines() + done.stderr.splitlines(), done.returncode


def differences(document, work):
    for line, commands, quoted in steps(document):
        printed, status = play(commands, work)
        if quoted is None and status:
            yield f"the commands from line {line} on end with {status}: {' / '.join(printed)}"
        if quoted is not None and not agrees(quoted.splitlines(), printed):
            yield f"the commands from line {line} on print something else:\n    " + "\n    ".join(printed)


def tried(path, cetvm):
    """How many blocks of commands a document has, and what differs."""
    document = path.read_text()
    with tempfile.TemporaryDirectory() as work:
        (Path(work) / "bin").mkdir()
        (Path(work) / "bin/cetvm").symlink_to(cetvm)
        return len(steps(document)), [f"{path.name}: {text}" for text in differences(document, work)]


def main():
    cetvm = Path(sys.argv[1] if len(sys.argv) > 1 else BUILT).resolve()
    if not os.access(cetvm, os.X_OK):
        sys.exit(f"guide: no program at {cetvm}")
    count, wrong = 0, []
    try:
        for name in sys.argv[2:] or DOCUMENTS:
            blocks, found = tried(TOP / name, cetvm)
            count, wrong = count + blocks, wrong + found
    except (Faulty, OSError, ValueError, subprocess.TimeoutExpired) as error:
        sys.exit(f"guide: {error}")
    for text in wrong:
        print(f"guide: {text}")
    print(f"guide: {count} blocks of commands, {len(wrong)} print something else")
    sys.exit(bool(wrong) or not count)


if __name__ == "__main__":
    main()
