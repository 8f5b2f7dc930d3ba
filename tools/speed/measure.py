#!/usr/bin/env python3
"""Measures `cetvm run` with the full report on a loop of 9,000 and of 90,000 records.

For each size it prints the records, the least processor time of several runs, the records a second of
that time, and the peak memory. The first argument may name another program than the one that `rt ci`
has left. It is no test: no figure makes it fail.
"""
import os
import re
import subprocess
import sys
import tempfile

HERE = os.path.dirname(os.path.abspath(__file__))
CETVM = sys.argv[1] if len(sys.argv) > 1 else os.path.join(HERE, "../../crates/cetvm/out/cetvm")
RUNS = 11


def run(image, report):
    """The processor time in seconds and the peak memory in kB of one run."""
    with open(image) as source, open(report, "w") as sink:
        process = subprocess.Popen([CETVM, "run"], stdin=source, stdout=sink)
        _, status, usage = os.wait4(process.pid, 0)
    if status != 0:
        sys.exit(f"the run ended with status {status}")
    return usage.ru_utime + usage.ru_stime, usage.ru_maxrss


def main():
    with open(os.path.join(HERE, "loop.s.in")) as source:
        text = source.read()
    with tempfile.TemporaryDirectory() as work:
        image, report = os.path.join(work, "image"), os.path.join(work, "report")
        for turns in (1000, 10000):
            with open(image, "w") as sink:
                source = text.replace("TURNS", str(turns)).encode()
                subprocess.run([CETVM, "asm"], input=source, stdout=sink, check=True)
            times, peaks = zip(*(run(image, report) for _ in range(RUNS)))
            with open(report) as lines:
                records = int(re.search(r"thread 0 records (\d+)", lines.read()).group(1))
            rate = records / min(times)
            print(f"{records} records: {min(times):.4f} s, {rate:,.0f} records a second, {max(peaks):,} kB")


if __name__ == "__main__":
    main()
