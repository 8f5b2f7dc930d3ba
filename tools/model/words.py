"""The words of `run`, `replay` and `smp`. Words that are no command are an error: which one is faulty isn't told here."""
from collections import namedtuple

from places import MASK

Settings = namedtuple("Settings", "limit procs trace signals schedule mix workers",
                      defaults=(100000, 4, "full", (), None, None, None))


class Faulty(Exception):
    """The words are no command, or a text is no value."""


def number(text, low, high):
    digits = text[2:] if text.startswith("0x") else text
    allowed = "0123456789abcdefABCDEF" if text.startswith("0x") else "0123456789"
    if not 1 <= len(digits) <= (16 if digits is not text else 20) or set(digits) - set(allowed):
        raise Faulty(text)
    value = int(digits, 16 if digits is not text else 10)
    if not low <= value <= high:
        raise Faulty(text)
    return value


def signals(text):
    items = []
    for item in text.split(",") if text else ():
        parts = item.split(":")
        if len(parts) != 3:
            raise Faulty(text)
        items.append((number(parts[0], 0, 31), number(parts[1], 0, 100000), number(parts[2], 1, 31)))
    if len(items) > 256:
        raise Faulty(text)
    return tuple(items)


def schedule(text):
    items, turns = text.split(",") if text else [], []
    if len(items) > 10000:
        raise Faulty(text)
    for item in items:
        thread, times, count = item.partition("*")
        count = number(count, 1, 1000000) if times else 1
        turns += [number(thread, 0, 31)] * count
    if len(turns) > 1000000:
        raise Faulty(text)
    return turns


def trace(text):
    if text not in ("full", "last"):
        raise Faulty(text)
    return text


COMMON = {"--limit": lambda text: number(text, 1, 100000), "--procs": lambda text: number(text, 1, 8), "--trace": trace,
          "--signals": signals}
PLANS = {"--schedule": schedule, "--mix": lambda text: number(text, 0, MASK)}
WORKERS = {"--workers": lambda text: number(text, 1, 16)}
OPTIONS = {"run": COMMON, "replay": COMMON | PLANS, "smp": COMMON | WORKERS}
WORKERS_ELSE = 4


def read(words):
    """The settings of a run."""
    if not words or words[0] not in OPTIONS:
        raise Faulty("the command")
    options, found, rest = OPTIONS[words[0]], {}, list(words[1:])
    while rest:
        name, equals, value = rest.pop(0).partition("=")
        if name not in options or name in found or not (equals or rest):
            raise Faulty(name)
        found[name] = options[name](value if equals else rest.pop(0))
    if words[0] == "replay" and len(found.keys() & PLANS.keys()) != 1:
        raise Faulty("one of --schedule and --mix is wanted")
    if words[0] == "smp":
        found.setdefault("--workers", WORKERS_ELSE)
    return Settings(**{name[2:]: value for name, value in found.items()})
