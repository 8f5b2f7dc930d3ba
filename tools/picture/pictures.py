#!/usr/bin/env python3
"""Draws the pictures of docs/pictures/, with the labels of their sources as names.

    pictures.py [CETVM]          says which of them are other pictures than these
    pictures.py write [CETVM]    writes them

A picture is of a report that stands in examples/, or of a run by other words, or of a program of docs/guide.md, for
which CETVM is needed: else the program that `rt ci` has left. What needs a program or a document that isn't there is
passed over with a word."""
import os
import re
import subprocess
import sys
from collections import namedtuple
from pathlib import Path

sys.dont_write_bytecode = True

from labels import labels, read_listing
from report import read_report
from story import Story
from svg import draw
from symbols import Symbols
from window import window_of

TOP = Path(__file__).resolve().parents[2]
EXAMPLES, PICTURES, GUIDE = TOP / "examples", TOP / "docs" / "pictures", TOP / "docs" / "guide.md"
BUILT = TOP / "crates" / "cetvm" / "out" / "cetvm"

# A picture of a run of a source by these words. Without words it is the report in examples/.
Picture = namedtuple("Picture", "name source words runtime places", defaults=(None, False, (None, None)))
ALL = (
    *(Picture(name, name) for name in (
        "smashed_return", "there_and_back", "chain_of_stacks", "handler_returns", "signal_and_longjmp", "ping_pong",
        "thread_and_child")),
    Picture("race_for_one_token", "token_race"),
    Picture("race_of_the_second", "token_race_of_the_second"),
    Picture("forged_frame", "sigreturn_forged"),
    Picture("signal_on_a_switched_stack", "guide signal", "run --signals 0:12:10"),
    Picture("announced_too_early", "guide early", "replay --schedule 0*180,1*400", True),
)


class Missing(Exception):
    """What a picture needs isn't there."""


def source_of(picture):
    """The source, with the guest runtime behind it where it is assembled with that."""
    place, _, name = picture.source.rpartition(" ")
    words = EXAMPLES / f"{name}.words"
    runtime = picture.runtime or not place and words.exists() and words.read_text().startswith("asm --runtime\n")
    if place:
        text = guide_source(name)
    else:
        text = (EXAMPLES / f"{name}.s").read_text(encoding="utf-8")
    if runtime:
        text += "\n" + output([TOP / "tools" / "texts.py", "runtime"], b"").decode()
    return text


def guide_source(name):
    """A program of the guide, which its reader types."""
    if not GUIDE.exists():
        raise Missing("docs/guide.md isn't there")
    found = re.search(rf"^cat > /tmp/{name}\.s <<'END'\n(.*?)^END$", GUIDE.read_text(encoding="utf-8"), re.M | re.S)
    if not found:
        raise Missing(f"docs/guide.md has no program {name}.s")
    return found[1]


def output(words, data):
    return subprocess.run(words, input=data, capture_output=True).stdout


def report_and_listing(picture, cetvm):
    if picture.words is None:
        return [(EXAMPLES / f"{picture.source}.{kind}").read_bytes() for kind in ("report", "listing")]
    source = source_of(picture).encode()
    if not os.access(cetvm, os.X_OK):
        raise Missing(f"there is no program at {cetvm}")
    image = output([cetvm, "asm"], source)
    return output([cetvm, *picture.words.split()], image), output([cetvm, "dis"], image)


def draw_picture(picture, cetvm):
    report, listing = report_and_listing(picture, cetvm)
    story = Story(read_report(report))
    symbols = Symbols(labels(source_of(picture), read_listing(listing.decode())))
    return draw(story, window_of(story.last, *picture.places), symbols)


def all_drawn(cetvm):
    """Each picture's path and text. What can't be drawn is passed over."""
    for picture in ALL:
        try:
            yield PICTURES / f"{picture.name}.svg", draw_picture(picture, cetvm)
        except Missing as error:
            print(f"picture: {picture.name} is passed over: {error}")


def stale(cetvm=BUILT):
    """The pictures that are missing or other ones."""
    for path, text in all_drawn(cetvm):
        if not path.exists() or path.read_text(encoding="utf-8") != text:
            yield f"docs/pictures/{path.name} is another picture than that of its report"


def main(words):
    write = words[:1] == ["write"]
    cetvm = (words[1:] if write else words)[:1] or [BUILT]
    if write:
        for path, text in all_drawn(cetvm[0]):
            path.write_text(text, encoding="utf-8")
        return 0
    wrong = list(stale(cetvm[0]))
    for line in wrong:
        print(f"picture: {line}")
    return 1 if wrong else 0


if __name__ == "__main__":
    sys.exit(main(sys.argv[1:]))
