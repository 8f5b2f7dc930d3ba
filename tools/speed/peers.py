#!/usr/bin/env python3
"""Compares cetvm with the tools that tell each instruction of a program, beside each other in one run.

Each runs the same static program, that of mix.s.in, with some 10,000 and with some 100,000 steps, and writes what it
tells to a file. A round has a run of each tool; the least processor time of several rounds counts (user and system, of
the whole run), so that other work on the machine does least harm. A tool that isn't there is passed over, with the
reason. Behind the tools come further runs of cetvm, and what `valgrind` counts, which doesn't vary with the load.

It needs GNU's as and ld and a compiler for C, and installs nothing. It is no test: no figure makes it fail.
"""
import argparse
import os
import re
import shutil
import subprocess
import sys
import tempfile
from dataclasses import dataclass
from pathlib import Path

HERE = Path(__file__).resolve().parent
TOP = HERE.parents[1]
FEW, MANY = 454, 4543
MOVES = 90_000
PARTS = ("peers", "cetvm", "instructions")


@dataclass
class Tool:
    """A tool and its command, in which PROGRAM stands for the program that it runs and OUTPUT for its log. Each line of
    what it tells that begins with `step` is a step's."""

    name: str
    tells: str
    step: str
    command: list
    reads: bool = False  # the program is its standard input
    logs: bool = False  # it tells in its log, and not in what it prints
    counted: bool = False  # valgrind can count its instructions


class Passed(Exception):
    """A tool that can't be run here, with the reason."""


class Runs:
    """Runs commands, with a folder for what they write."""

    def __init__(self, folder):
        self.folder = Path(folder)
        self.output = self.folder / "output"
        self.compiled("usage")

    def compiled(self, name, *libraries):
        """The program of one of the sources in C beside this script."""
        made = self.folder / name
        command = ["cc", "-O2", "-o", made, HERE / "peers" / f"{name}.c", *libraries]
        ran = subprocess.run(command, capture_output=True, text=True)
        if ran.returncode:
            wrong = [line for line in ran.stderr.splitlines() if "error" in line or "cannot find" in line]
            raise Passed(f"peers/{name}.c can't be compiled: {wrong[0].strip()}")
        return made

    def linked(self, turns):
        """The static program of the mix with so many turns, which is an image of cetvm too."""
        made = self.folder / f"mix{turns}"
        text = (HERE / "mix.s.in").read_text().replace("TURNS", str(turns))
        source = f".intel_syntax noprefix\n.globl _start\n{text}"
        subprocess.run(["as", "--64", "-o", f"{made}.o", "-"], input=source.encode(), check=True)
        subprocess.run(["ld", "-z", "shstk", "-o", made, f"{made}.o"], check=True)
        return made

    def once(self, command, image=os.devnull, logs=False):
        """Runs a command, with what it prints as the output unless it logs: its seconds and its peak memory in kB."""
        figures = self.folder / "figures"
        with open(image) as source, open(os.devnull if logs else self.output, "w") as sink:
            subprocess.run([self.folder / "usage", figures, *command], stdin=source, stdout=sink,
                           stderr=subprocess.DEVNULL, check=True)
        seconds, memory, status = figures.read_text().split()
        if int(status):
            raise Passed(f"it ended with the status {os.waitstatus_to_exitcode(int(status))}")
        return float(seconds), int(memory)

    def words(self, tool, program):
        names = {"PROGRAM": str(program), "OUTPUT": str(self.output)}
        return [re.sub("PROGRAM|OUTPUT", lambda name: names[name[0]], str(word)) for word in tool.command]

    def of(self, tool, program):
        """Runs a tool on a program."""
        return self.once(self.words(tool, program), program if tool.reads else os.devnull, tool.logs)

    def steps(self, tool):
        """The steps that the output tells of."""
        with open(self.output, errors="replace") as lines:
            return sum(line.startswith(tool.step) for line in lines)

    def count(self, tool, program):
        """The host instructions of a run. Tools that make code as they go need the first option."""
        valgrind = ["valgrind", "--smc-check=all", "--tool=callgrind", f"--callgrind-out-file={os.devnull}"]
        with open(program if tool.reads else os.devnull) as source, open(self.output, "w") as sink:
            ran = subprocess.run([*valgrind, *self.words(tool, program)], stdin=source,
                                 stdout=subprocess.DEVNULL if tool.logs else sink, stderr=subprocess.PIPE)
        if ran.returncode:
            raise Passed(f"under valgrind it ended with the status {ran.returncode}")
        return int(re.search(rb"Collected : (\d+)", ran.stderr)[1])


def first_line(*command):
    return subprocess.run(command, capture_output=True, text=True).stdout.partition("\n")[0].strip()


def needed(word):
    if not shutil.which(word):
        raise Passed(f"there is no {word}")
    return word


def cetvm(_runs, path):
    if not os.access(path, os.X_OK):
        raise Passed(f"there is no program at {path}")
    tells = "RIP, the kind of the step, value and RFLAGS, or target and SSP; all shadow stacks at the end"
    return Tool("`cetvm run`", tells, "0 ", [path, "run"], reads=True, counted=True)


def unicorn(runs, _path):
    made = runs.compiled("unicorn", "-lunicorn")
    return Tool(f"Unicorn {first_line(made)}, a hook that prints", "RIP, RSP", "", [made, "PROGRAM"], counted=True)


def lackey(_runs, _path):
    version = first_line(needed("valgrind"), "--version").partition("-")[2]
    options = ["--tool=lackey", "--trace-mem=yes", "--basic-counts=no", "--log-file=OUTPUT"]
    tells = "RIP and length; address and size of each access to data"
    return Tool(f"valgrind {version}, lackey", tells, "I ", ["valgrind", *options, "PROGRAM"], logs=True)


def qemu(items):
    """QEMU's user mode with one instruction in each of its blocks, and a log of these."""
    version = re.search(r"version ([\d.]+)", first_line(needed("qemu-x86_64"), "--version"))[1]
    options = subprocess.run(["qemu-x86_64", "-h"], capture_output=True, text=True).stdout
    single = "-one-insn-per-tb" if "-one-insn-per-tb" in options else "-singlestep"
    command = ["qemu-x86_64", single, "-d", f"{items},nochain", "-D", "OUTPUT", "PROGRAM"]
    return f"QEMU {version}, user mode, `-d {items}`", command


def qemu_exec(_runs, _path):
    name, command = qemu("exec")
    return Tool(name, "RIP", "Trace ", command, logs=True, counted=True)


def qemu_cpu(_runs, _path):
    name, command = qemu("cpu")
    return Tool(name, "RIP, RFLAGS, all general registers and segments", "RAX=", command, logs=True)


def stepper(runs, _path):
    made, kernel = runs.compiled("stepper"), os.uname().release.partition("-")[0]
    return Tool(f"ptrace of Linux {kernel}, single steps", "RIP, RSP", "", [made, "PROGRAM"])


ALL = (cetvm, unicorn, lackey, qemu_exec, stepper, qemu_cpu)


def ready(runs, path, programs):
    """The tools that run here, each with the steps of the programs and the bytes that it tells of the last one."""
    tools = []
    for make in ALL:
        try:
            tool, steps = make(runs, path), []
            for program in programs:
                runs.of(tool, program)
                steps.append(runs.steps(tool))
            tools.append((tool, steps, runs.output.stat().st_size))
        except Passed as reason:
            print(f"passed over: {make.__name__}: {reason}")
    return tools


def compare(runs, tools, programs, rounds):
    """Prints the table of the tools."""
    taken = {(tool.name, program): [] for tool, _, _ in tools for program in programs}
    for _ in range(rounds):
        for tool, _, _ in tools:
            for program in programs:
                taken[tool.name, program].append(runs.of(tool, program))
    print("| tool | steps | processor time | steps a second | without the start | peak memory | bytes a step "
          "| what it tells of a step |")
    print("|---|---|---|---|---|---|---|---|")
    for tool, (few, many), size in tools:
        short, long = (min(taken[tool.name, program])[0] for program in programs)
        memory = max(memory for _, memory in taken[tool.name, programs[-1]])
        print(f"| {tool.name} | {many:,} | {long:.3f} s | {many / long:,.0f} | {(many - few) / (long - short):,.0f} "
              f"| {memory / 1000:.1f} MB | {size / many:.0f} | {tool.tells} |")
    if len({many for _, (_, many), _ in tools}) > 1:
        print("\nThe tools tell of different numbers of steps.")
    print(flush=True)


def image_of(runs, path, source, name, *options):
    """The image that cetvm's assembler makes of a source."""
    image = runs.folder / name
    with open(image, "w") as sink:
        subprocess.run([path, "asm", *options], input=source.encode(), stdout=sink, check=True)
    return image


def records(report):
    """The records of all threads that a report, or the line of a bench, tells of."""
    heads = re.findall(r"^(?:thread|bench) \d+ records (\d+)", report.read_text(), re.MULTILINE)
    return sum(map(int, heads))


def further(runs, path, rounds):
    """Prints what further runs of cetvm take."""
    end = "        mov edi, 0\n        mov eax, 231\n        syscall\n"
    three = image_of(runs, path, end, "three")
    moves = image_of(runs, path, "        mov rax, rbx\n" * MOVES + end, "moves")
    race = image_of(runs, path, (HERE / "race.s").read_text(), "race", "--runtime")
    commands = {
        "`run`, three records": (["run"], three),
        f"`run`, {MOVES:,} moves": (["run"], moves),
        "`replay --mix 1`, a race of eight threads": (["replay", "--mix", "1"], race),
        "`bench 1000`": (["bench", "1000"], os.devnull),
    }
    taken = {name: [] for name in commands}
    for _ in range(rounds):
        for name, (words, image) in commands.items():
            taken[name].append((*runs.once([path, *words], image), records(runs.output)))
    print("| cetvm | records | processor time | records a second | peak memory |\n|---|---|---|---|---|")
    for name, figures in taken.items():
        seconds, _, told = min(figures)
        memory = max(memory for _, memory, _ in figures)
        print(f"| {name} | {told:,} | {seconds:.4f} s | {told / seconds:,.0f} | {memory / 1000:.1f} MB |")
    print(flush=True)


def instructions(runs, tools, programs):
    """Prints the host instructions of a step, those of the kernel left out."""
    for tool, (few, many), _ in tools:
        if tool.counted:
            try:
                short, long = (runs.count(tool, program) for program in programs)
                print(f"{tool.name}: {(long - short) / (many - few):,.0f} host instructions a step", flush=True)
            except Passed as reason:
                print(f"passed over: {tool.name}: {reason}", flush=True)


def machine(runs, rounds):
    """Prints on what the runs are made."""
    model = re.search(r"model name\s*: (.*)", Path("/proc/cpuinfo").read_text())
    disk = subprocess.run(["df", "--output=fstype", runs.folder], capture_output=True, text=True).stdout.split()
    loads = ", ".join(f"{load:.1f}" for load in os.getloadavg())
    print(f"{os.cpu_count()} cores of {model[1] if model else 'an unknown processor'}, loads {loads}; "
          f"output to a file on {disk[-1]}; the least of {rounds} rounds", flush=True)


def measure(runs, path, rounds, parts):
    machine(runs, rounds)
    programs = [runs.linked(turns) for turns in (FEW, MANY)]
    tools = ready(runs, path, programs)
    print(flush=True)
    if "peers" in parts:
        compare(runs, tools, programs, rounds)
    runs_cetvm = any(tool.reads for tool, _, _ in tools)
    if "cetvm" in parts and runs_cetvm:
        further(runs, path, rounds)
    if "instructions" in parts and not shutil.which("valgrind"):
        print("passed over: instructions: there is no valgrind")
    elif "instructions" in parts:
        instructions(runs, tools, programs)
        if runs_cetvm:
            subprocess.run([sys.executable, HERE / "instructions.py", path], check=True)


def main():
    asked = argparse.ArgumentParser(description="Compares cetvm with other tools that tell each instruction.")
    asked.add_argument("--cetvm", default=TOP / "crates/cetvm/out/cetvm", help="the program, by itself that of `rt ci`")
    asked.add_argument("--rounds", type=int, default=7, help="how often each is run, by itself 7 times")
    asked.add_argument("--work", help="the folder for what is written, by itself that for temporary files")
    asked.add_argument("--parts", default=",".join(PARTS), help="which parts, by themselves " + ",".join(PARTS))
    words = asked.parse_args()
    path, parts = Path(words.cetvm).resolve(), words.parts.split(",")
    if not set(parts) <= set(PARTS):
        asked.error(f"the parts are {', '.join(PARTS)}")
    for word in ("as", "ld", "cc"):
        if not shutil.which(word):
            sys.exit(f"peers: there is no {word}")
    with tempfile.TemporaryDirectory(dir=words.work) as folder:
        try:
            measure(Runs(folder), path, words.rounds, parts)
        except Passed as reason:
            sys.exit(f"peers: {reason}")


if __name__ == "__main__":
    main()
