#!/usr/bin/env python3
"""Measures the wall time of `cetvm run`, and of `cetvm smp` with 1, 2 and 4 workers, on four threads of 90,000 records.

The threads are independent (threads.s.in), and the full report is written to a file. A round has a run of each command.
It prints the least wall time of several rounds, the records a second of that, how many times as fast as `run` it is,
the least processor time, and the peak memory, in which Python's own 14 MB are the least. A command that the program
doesn't have is passed over. The figures are of use only where the machine has nothing else to do. No figure makes it
fail; a report that isn't that of `run` does.
"""
import argparse
import filecmp
import os
import re
import subprocess
import sys
import tempfile
import time
from pathlib import Path

HERE = Path(__file__).resolve().parent
TOP = HERE.parents[1]
TURNS = 10_000
COMMANDS = (["run"], *(["smp", "--workers", workers] for workers in ("1", "2", "4")))
USAGE = 1


def once(path, words, image, report):
    """One run: its exit status, and its wall time and processor time in seconds and peak memory in kB."""
    with open(image) as source, open(report, "w") as sink:
        start = time.perf_counter()
        process = subprocess.Popen([path, *words], stdin=source, stdout=sink, stderr=subprocess.DEVNULL)
        _, status, usage = os.wait4(process.pid, 0)
        wall = time.perf_counter() - start
    process.returncode = os.waitstatus_to_exitcode(status)
    return process.returncode, (wall, usage.ru_utime + usage.ru_stime, usage.ru_maxrss)


def there(path, image, first, report):
    """The commands that the program has; `first` becomes the report of `run`, which is that of each."""
    commands = []
    for words in COMMANDS:
        status, _ = once(path, words, image, report if commands else first)
        if status == USAGE and commands:
            print(f"passed over: {' '.join(words)}: the program doesn't have it")
        elif status:
            sys.exit(f"{' '.join(words)} ended with the status {status}")
        elif commands and not filecmp.cmp(first, report, shallow=False):
            sys.exit(f"{' '.join(words)} gives another report than run")
        else:
            commands.append(words)
    return commands


def records(report):
    """The records of all threads that a report tells of."""
    with open(report) as lines:
        heads = (re.match(r"thread \d+ records (\d+)", line) for line in lines)
        return sum(int(head[1]) for head in heads if head)


def table(commands, taken, told):
    print("| command | wall time | records a second | as fast as `run` | processor time | peak memory |")
    print("|---|---|---|---|---|---|")
    run = min(taken[0])[0]
    for words, figures in zip(commands, taken):
        walls, processor, memory = zip(*figures)
        wall = min(walls)
        print(f"| `{' '.join(words)}` | {wall:.3f} s | {told / wall:,.0f} | {run / wall:.2f} times "
              f"| {min(processor):.3f} s | {max(memory) / 1000:.1f} MB |")


def main():
    asked = argparse.ArgumentParser(description="Measures threads of a program on workers of the host.")
    asked.add_argument("--cetvm", default=TOP / "crates/cetvm/out/cetvm", help="the program, by itself that of `rt ci`")
    asked.add_argument("--rounds", type=int, default=11, help="how often each is run, by itself 11 times")
    words = asked.parse_args()
    path = Path(words.cetvm).resolve()
    with tempfile.TemporaryDirectory() as work:
        image, first, report = (Path(work) / name for name in ("image", "first", "report"))
        source = (HERE / "threads.s.in").read_text().replace("TURNS", str(TURNS))
        with open(image, "w") as sink:
            subprocess.run([path, "asm", "--runtime"], input=source.encode(), stdout=sink, check=True)
        commands = there(path, image, first, report)
        taken = [[] for _ in commands]
        for _ in range(words.rounds):
            for command, figures in zip(commands, taken):
                figures.append(once(path, command, image, report)[1])
        told = records(first)
    loads = ", ".join(f"{load:.1f}" for load in os.getloadavg())
    print(f"{told:,} records; {os.cpu_count()} cores, loads {loads}; the least of {words.rounds} rounds\n")
    table(commands, taken, told)


if __name__ == "__main__":
    main()
