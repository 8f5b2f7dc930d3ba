#!/usr/bin/env python3
"""`usage.py CETVM [COUNT [SEED]]` gives CETVM lists of words, and compares which of them are commands, and of each
other which word is the first faulty one, and that the help stands behind the line that tells it. The lists are those of
examples/cases/words.cases, each list of these with a word more, a word less and a word twice, and COUNT random ones
(else 400), by the generator SEED (else 0).

The first faulty word is found by what it means: the least K for which no command begins with the first K words."""
import os
import random
import subprocess
import sys

sys.dont_write_bytecode = True

from texts import EXAMPLES, help_text
from words import COMMON, OPTIONS as OF_RUNS, PLANS, WORKERS, Faulty, number

OPTIONS = OF_RUNS | {"dis": {}, "check": {}, "asm": {"--runtime": None}, "bench": {}}
LEAST = 800


def operand(text):
    number(text, 1, 1000)


def fits(test, text):
    try:
        test(text)
    except Faulty:
        return False
    return True


def given(words):
    """The options that the words behind the command are, each by its name, and whether the last one lacks its value;
    nothing where they are none."""
    options, names, rest = OPTIONS[words[0]], [], list(words[1:])
    while rest:
        name, equals, value = rest.pop(0).partition("=")
        if name not in options or equals and options[name] is None:
            return None
        names.append(name)
        if options[name] is None:
            continue
        if not equals and not rest:
            return names, True
        if not fits(options[name], value if equals else rest.pop(0)):
            return None
    return names, False


def begins(words):
    """Whether some command begins with these words."""
    if not words:
        return True
    if words[0] == "bench":
        return len(words) < 3 and all(fits(operand, word) for word in words[1:])
    found = given(words) if words[0] in OPTIONS else None
    return bool(found) and len(set(found[0])) == len(found[0]) and len(PLANS.keys() & set(found[0])) < 2


def is_command(words):
    if not words or not begins(words):
        return False
    if words[0] == "bench":
        return len(words) == 2
    names, lacks = given(words)
    return not lacks and (words[0] != "replay" or len(PLANS.keys() & set(names)) == 1)


def is_text(word):
    try:
        word.encode()
    except UnicodeEncodeError:
        return False
    return True


def first_faulty(words):
    """The number of the first faulty word, counted from 1; 0 for a command."""
    if not all(map(is_text, words)):
        return 1
    if is_command(words):
        return 0
    return next((count for count in range(1, len(words) + 1) if not begins(words[:count])), len(words) + 1)


NAMES = [*COMMON, *PLANS, *WORKERS, "--runtime"]
VALUES = """1 5 8 9 0 16 17 0x10 1000 1001 31 32 100000 100001 0x1F 0x00000000000186a0 -1 +1 007 1_0 ٣ 18446744073709551615
18446744073709551616 0xffffffffffffffff 0x10000000000000000 0X5 0x full last fully Full 0:0:10 0:6:10,31:0:1 32:0:1
0:100001:1 0:0:32 0:0 0*3,1 31*1000000 0*1000001 0*0 0, , x --limit --trace --mix=1""".split()
VALUES += ["", " ", "5 ", " 5", "5\n"]


def random_words(numbers):
    words = [numbers.choice([*OPTIONS, *OPTIONS, "walk", "--limit", ""])]
    for _ in range(numbers.randrange(5)):
        name, value = numbers.choice(NAMES), numbers.choice(VALUES)
        words += numbers.choice(([name, value], [f"{name}={value}"], [name, value], [name], [value]))
    return words


def lists(count, seed):
    for line in (EXAMPLES / "cases" / "words.cases").read_text().splitlines():
        words = line.split()[1:]
        yield from (words, words[:-1], words + words[-1:], [*words, "x"])
    numbers = random.Random(seed)
    yield from (random_words(numbers) for _ in range(count))


def wrong(cetvm, words):
    """How the answer to these words differs, or nothing."""
    faulty = first_faulty(words)
    made = subprocess.run([cetvm, *words], stdin=subprocess.DEVNULL, capture_output=True)
    if not faulty:
        return "they are refused" if made.returncode == 1 else None
    line = f"cetvm: usage: word {faulty}\n{help_text()}"
    if (made.returncode, made.stderr.decode(), made.stdout) == (1, line, b""):
        return None
    return f"word {faulty} is faulty, and the answer is {made.returncode} {made.stderr.decode()[:60]!r}"


def main():
    if len(sys.argv) < 2 or not os.access(sys.argv[1], os.X_OK):
        sys.exit("usage: no program to compare with")
    count = int(sys.argv[2]) if len(sys.argv) > 2 else 400
    every = {tuple(words): None for words in lists(count, int(sys.argv[3]) if len(sys.argv) > 3 else 0)}
    faults = [f"{' '.join(words)[:100]}: {fault}" for words in every if (fault := wrong(sys.argv[1], words))]
    for line in faults[:20]:
        print(f"usage: {line}")
    faulty = sum(map(bool, map(first_faulty, every)))
    print(f"usage: {len(every)} lists of words, {faulty} of them faulty; {len(faults)} differ")
    sys.exit(bool(faults) or len(every) < LEAST)


if __name__ == "__main__":
    main()
