"""The places that a picture shows, and the words for records that both kinds of picture use."""
from collections import namedtuple

from report import FAULTS

# Without --from and --to a picture has the last places of a longer report; no picture has more than MOST.
USUAL, MOST = 500, 4000

Window = namedtuple("Window", "first last all")


class Wrong(Exception):
    """The words ask for what can't be drawn."""


def window_of(last, first, end):
    """The window for the numbers behind --from and --to, where they are given."""
    if first is not None and end is not None and first > end:
        raise Wrong(f"--from {first} is behind --to {end}")
    if first is not None and first > last:
        raise Wrong(f"--from {first}: the last place is {last}")
    stop = min(last, end) if end is not None else last
    if first is None:
        first = 1 if end is not None else max(1, stop - USUAL + 1)
    elif end is None:
        stop = min(last, first + USUAL - 1)
    if stop - first + 1 > MOST:
        raise Wrong(f"places {first} to {stop} are {stop - first + 1}: no picture has more than {MOST}")
    return Window(first, stop, last)


def left_out(window):
    """What the window leaves out, in words; nothing where it has all."""
    parts = [(1, window.first - 1), (window.last + 1, window.all)]
    parts = [f"{first} to {last}" for first, last in parts if first <= last]
    if not parts:
        return ""
    return f"places {window.first} to {window.last} of {window.all}; left out: {' and '.join(parts)} (--from, --to)"


def label(record):
    """A few letters for a record."""
    if record.name in ("#CP", "#PF"):
        return f"{record.name} {record.code}"
    if record.name in ("kill", "signal", "ignore"):
        return f"{record.name} {record.a}"
    if record.name == "born":
        return f"born {record.a}"
    return record.name


def group(record):
    """Records of one colour."""
    if record.name in FAULTS:
        return "fault"
    if record.name in ("sys", "claim", "born", "wrote"):
        return "service"
    if record.name in ("signal", "ignore", "sigret"):
        return "delivery"
    return record.name


def bar_name(bar, symbols, pointer):
    """What an entry is. `pointer` is how an SSP is written."""
    if bar.kind == "call":
        return symbols.name(bar.value)
    if bar.kind == "frame":
        return f"signal {bar.value}"
    if bar.kind == "restorer":
        return "restorer"
    return f"prev {pointer(bar.value)}"


def where(record, symbols):
    """The record's line, with the names of its addresses where there are any."""
    at = symbols.name(record.rip)
    text = record.text + (f"\nat {at}" if at != f"{record.rip:x}" else "")
    if record.name in ("call", "ret", "sigret"):
        to = symbols.name(record.a)
        text += f"\nto {to}" if to != f"{record.a:x}" else ""
    return text
