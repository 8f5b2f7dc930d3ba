#!/usr/bin/env python3
"""`images.py [CETVM]` assembles by GNU as and ld (gnu.py) each example, each case that is a run, and the sources of
tests/assembler. Where a listing stands beside one it is compared with that of GNU objdump, and with CETVM the image of
each with the one that this makes. Where GNU's tools aren't there, nothing is compared, and a line says so."""
import shutil
import sys

sys.dont_write_bytecode = True

from gnu import assembled, listed
from listing import Unknown, run
from texts import EXAMPLES, all_texts

ASSEMBLER = EXAMPLES.parent / "tests" / "assembler"
TOOLS = "as ld objdump objcopy nm".split()
LEAST = 100


def sources():
    """The names of the sources, their texts, and the listings beside them or nothing."""
    for text in all_texts():
        yield text.name, text.source, EXAMPLES / f"{text.name}.listing" if text.example else None
    for path in sorted(ASSEMBLER.glob("*.s")):
        yield path.stem, path.read_text(), path.with_suffix(".listing")


def differs(source, listing, cetvm):
    """What GNU's tools make otherwise of a source, or nothing."""
    image = assembled(source)
    if listing and "".join(line + "\n" for line in listed(image)) != listing.read_text():
        return "the listing beside it"
    if cetvm and run(cetvm, ["asm"], source.encode()).stdout != image:
        return "the image that the program makes"
    return None


def main():
    missing = [tool for tool in TOOLS if not shutil.which(tool)]
    if missing:
        sys.exit(print(f"images: skipped, since there is no {missing[0]}"))
    cetvm, count, wrong = sys.argv[1] if len(sys.argv) > 1 else None, 0, []
    for name, source, listing in sources():
        count += 1
        try:
            fault = differs(source, listing, cetvm)
            wrong += [f"{name}: {fault} isn't that of GNU's tools"] if fault else []
        except Unknown as error:
            wrong.append(f"{name}: {error}")
    for line in wrong:
        print(f"images: {line}")
    print(f"images: {count} sources assembled by GNU's tools; {len(wrong)} differ")
    sys.exit(bool(wrong) or count < LEAST)


if __name__ == "__main__":
    main()
