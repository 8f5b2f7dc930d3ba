"""The examples and the cases that are runs: their sources, words, and what is stated of them."""
import subprocess
from collections import namedtuple
from functools import cache
from pathlib import Path

from words import Faulty, read

EXAMPLES = Path(__file__).resolve().parents[2] / "examples"
Text = namedtuple("Text", "name source words report status example", defaults=(False,))
CARRIED = EXAMPLES.parent / "tools" / "texts.py"


@cache
def carried(*words):
    """A text that the program carries, made from its lines."""
    return subprocess.run([CARRIED, *words], capture_output=True, check=True, text=True).stdout


def runtime():
    """The text that `asm --runtime` appends."""
    return carried("runtime")


def bench(swaps):
    """The program of `bench`."""
    return carried("bench", str(int(swaps, 0)))


def help_text():
    return carried("help")


def example(path):
    words, report = path.with_suffix(".words"), path.with_suffix(".report")
    made, run = words.read_text().splitlines() if words.exists() else ("asm", "run")
    source = path.read_text() + ("\n" + runtime() if made == "asm --runtime" else "")
    status = path.with_suffix(".status").read_text().rstrip("\n").replace("\n", " ")
    return Text(path.stem, source, run.split(), report.read_text() if report.exists() else None, status, True)


def case(path):
    """Nothing where the case changes its image, or isn't a run."""
    head, _, rest = path.read_text().partition("source:\n")
    source, _, report = rest.partition("output:\n")
    keys = dict(line.split(": ", 1) for line in head.splitlines())
    if "patch" in keys or "cut" in keys or keys["words"].split()[0] not in ("run", "replay"):
        return None
    return Text(path.stem, source, keys["words"].split(), report, f"{keys['status']} {keys.get('line', '')}".rstrip())


def all_texts():
    texts = [example(path) for path in sorted(EXAMPLES.glob("*.s"))]
    texts += [found for path in sorted((EXAMPLES / "cases").glob("*.case")) if (found := case(path))]
    return [text for text in texts if known(text.words)]


def known(words):
    try:
        read(words)
    except Faulty:
        return False
    return True
