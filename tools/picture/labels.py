#!/usr/bin/env python3
"""`labels.py SOURCE < LISTING` prints the labels of a source's text as `nm` would, for `picture.py --symbols`: an image
that `cetvm asm` wrote has no symbols. LISTING is what `cetvm dis` prints of that image, which has a line for each
instruction of the source, in its order. With `--runtime` the labels of the guest runtime follow, as `asm --runtime`
puts it behind the source."""
import re
import subprocess
import sys
from pathlib import Path

LABEL = re.compile(r"[ \t]*([A-Za-z_][A-Za-z0-9_]*):")
LISTED = re.compile(r"([0-9a-f]{16}) ([0-9a-f]+) \S.*")
TEXTS = Path(__file__).resolve().parents[1] / "texts.py"


class Wrong(Exception):
    """The listing isn't that of the source."""


def read_listing(text):
    addresses = []
    for number, line in enumerate(text.splitlines(), 1):
        match = LISTED.fullmatch(line)
        if not match:
            raise Wrong(f"line {number} of the listing has no address, bytes and text: {line[:60]!r}")
        addresses.append(int(match[1], 16))
    if not addresses:
        raise Wrong("line 1 of the listing is missing")
    return addresses


def labels(source, addresses):
    """The labels of the text with their addresses. A directive that puts bytes into the text is more than is read."""
    found, place, in_text = [], 0, True
    for number, line in enumerate(source.splitlines(), 1):
        line = re.split("[;#]", line)[0]
        while match := LABEL.match(line):
            if in_text and place < len(addresses):
                found.append((addresses[place], match[1]))
            line = line[match.end():]
        word = line.split()[0] if line.split() else ""
        if word in (".text", ".data"):
            in_text = word == ".text"
        elif word in (".byte", ".quad", ".zero") and in_text:
            raise Wrong(f"line {number} of the source puts bytes into the text")
        elif word and not word.startswith(".") and in_text:
            place += 1
    if place != len(addresses):
        raise Wrong(f"line {len(addresses)} of the listing is the last one, and the source has {place} instructions")
    return found


def main(words):
    runtime = "--runtime" in words
    words = [word for word in words if word != "--runtime"]
    if len(words) != 1:
        sys.exit("usage: labels.py SOURCE [--runtime] < LISTING")
    try:
        source = Path(words[0]).read_text(encoding="utf-8")
        if runtime:
            source += "\n" + subprocess.run([TEXTS, "runtime"], capture_output=True, check=True, text=True).stdout
        found = labels(source, read_listing(sys.stdin.read()))
    except (OSError, UnicodeDecodeError, Wrong) as error:
        sys.exit(f"labels: {error}")
    try:
        with open(1, "wb", closefd=False) as file:
            file.write("".join(f"{address:016x} t {name}\n" for address, name in found).encode())
    except OSError as error:
        sys.exit(f"labels: {error.strerror}")


if __name__ == "__main__":
    main(sys.argv[1:])
