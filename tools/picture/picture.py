#!/usr/bin/env python3
"""Draws a report of cetvm. `picture.py svg < REPORT` prints a timeline as SVG, which a browser shows, and
`picture.py json < REPORT` one in Chrome's trace event form, which Perfetto opens.

    --symbols FILE   names for addresses, as `nm IMAGE` prints them
    --from PLACE     the first and the last place shown. Without them an SVG has the last 500 places of a longer report,
    --to PLACE       and says what it left out; a JSON has all

A place is a record of a thread, counted from 1; README.md has more. Where the words or the input are wrong, one line on
standard error says so, with the number of the input's line, and the status is 1."""
import sys
from pathlib import Path

sys.dont_write_bytecode = True

from report import Faulty, read_report
from story import Story
from svg import draw
from symbols import Symbols, read_symbols
from trace import trace
from window import Window, Wrong, left_out, window_of

USAGE = "usage: picture.py svg|json [--symbols FILE] [--from PLACE] [--to PLACE] < REPORT"
OPTIONS = ("--symbols", "--from", "--to")


def read_words(words):
    """The kind of picture and the options."""
    if not words or words[0] not in ("svg", "json"):
        raise Wrong(USAGE)
    options, rest = {}, list(words[1:])
    while rest:
        name, equals, value = rest.pop(0).partition("=")
        if name not in OPTIONS or name in options or not (equals or rest):
            raise Wrong(USAGE)
        options[name] = value if equals else rest.pop(0)
    return words[0], options


def place(options, name):
    if name not in options:
        return None
    text = options[name]
    if not (text.isascii() and text.isdigit() and len(text) <= 10 and int(text) > 0):
        raise Wrong(f"{name}: a place is a number from 1 on, and not {text!r}")
    return int(text)


def symbols_of(options):
    if "--symbols" not in options:
        return Symbols()
    try:
        return read_symbols(Path(options["--symbols"]).read_bytes())
    except OSError as error:
        raise Wrong(f"{options['--symbols']}: {error.strerror}") from None
    except (Faulty, ValueError) as error:
        raise Wrong(f"{options['--symbols']}: {error}") from None


def picture(words, data):
    """The picture that the words ask for."""
    kind, options = read_words(words)
    first, last = place(options, "--from"), place(options, "--to")
    symbols = symbols_of(options)
    story = Story(read_report(data))
    if kind == "svg":
        return draw(story, window_of(story.last, first, last), symbols)
    window = window_of_all(story.last, first, last)
    return trace(story, window, symbols, left_out(window))


def window_of_all(last, first, end):
    """The window of a JSON, which may be as long as the report."""
    first, stop = first or 1, min(last, end or last)
    if first > stop:
        raise Wrong(f"--from {first} is behind the last place, {stop}")
    return Window(first, stop, last)


def main():
    try:
        with open(0, "rb", closefd=False) as file:
            data = file.read()
        made = picture(sys.argv[1:], data).encode()
        with open(1, "wb", closefd=False) as file:
            file.write(made)
    except (Faulty, Wrong) as error:
        print(f"picture: {error}", file=sys.stderr)
        return 1
    except OSError as error:
        print(f"picture: {error.strerror}", file=sys.stderr)
        return 1
    return 0


if __name__ == "__main__":
    sys.exit(main())
