#!/usr/bin/env python3
"""Makes the texts that the program carries from their lines: the guest runtime, the program of `bench`, and the help.

A text is its lines, each ended by a newline, the last one too, and no line begins with a blank. In the blocks below
` / ` stands between two lines, and so does the end of a row. `SAVE` is the stores of the registers that a call keeps
to the record at rdi, and `LOAD b` their loads from the record at b. The runtime begins with `.text`. `N` in the
program of `bench` is the number of its swaps, in decimal.

    tools/texts.py [CETVM]    compares each text, byte for byte, with the literals in the code that answer it, and with
                              what the program CETVM makes of it (else the one that `rt ci` has left, where it is there)
    tools/texts.py runtime    prints the runtime
    tools/texts.py bench N    prints the program of `bench`
    tools/texts.py help       prints the help
"""
import os
import re
import subprocess
import sys
from pathlib import Path

CRATES = Path(__file__).resolve().parent.parent / "crates"
KEPT = ("rbx", "rbp", "r12", "r13", "r14", "r15")

RUNTIME = """
getcontext: endbr64 / SAVE / mov [rdi+48], rsp / mov rax, ctx_ret / mov [rdi+56], rax
rdsspq rax / mov [rdi+64], rax / xor eax, eax / ret
makecontext: endbr64 / mov [rdi+16], rsi / mov [rdi+24], rdx / mov [rdi+32], r9
and rcx, -16 / mov [rdi+48], rcx / mov rax, ctx_enter / mov [rdi+56], rax / mov [rdi+64], r8 / ret
ctx_enter: endbr64 / mov rdi, r13 / call r12 / test r14, r14 / je ctx_end / mov rdi, r14 / call setcontext
ctx_end: xor edi, edi / mov eax, 60 / syscall
swapcontext: endbr64 / SAVE / mov [rdi+48], rsp / mov rax, ctx_ret / mov [rdi+56], rax
rdsspq rax / mov [rdi+64], rax
ctx_go: mov rax, [rsi+64] / rstorssp [rax-8] / saveprevssp
LOAD rsi / mov rsp, [rsi+48] / xor eax, eax / jmp [rsi+56]
ctx_ret: endbr64 / ret
setcontext: endbr64 / mov rsi, rdi / jmp ctx_go
setjmp: endbr64 / SAVE / lea rax, [rsp+8] / mov [rdi+48], rax / mov rax, [rsp] / mov [rdi+56], rax
rdsspq rax / add rax, 8 / mov [rdi+64], rax / xor eax, eax / ret
longjmp: endbr64 / rdsspq rax / mov rcx, [rdi+64] / sub rcx, rax / shr rcx, 3
lj_loop: test rcx, rcx / je lj_done / mov edx, 255 / cmp rcx, rdx / cmovb rdx, rcx
incsspq rdx / sub rcx, rdx / jmp lj_loop
lj_done: mov rax, rsi / test rax, rax / jne lj_go / mov eax, 1
lj_go: LOAD rdi / mov rsp, [rdi+48] / notrack jmp [rdi+56]
thread_start: endbr64 / mov [rdx-8], rsi / mov [rdx-16], rdi / lea rsi, [rdx-16]
mov edi, 0x10900 / mov eax, 56 / syscall / test rax, rax / je ts_child / ret
ts_child: pop rax / pop rdi / call rax / xor edi, edi / mov eax, 60 / syscall
sig_restorer: mov eax, 15 / syscall
"""

BENCH = """
_start: mov edi, 0 / mov esi, 4096 / mov edx, 1 / mov eax, 453 / syscall / lea r8, [rax+4096]
lea rdi, [rip+ctx_b] / lea rsi, [rip+work] / xor edx, edx / lea rcx, [rip+stack_end] / xor r9d, r9d
call makecontext / mov ebp, N
again: lea rdi, [rip+ctx_a] / lea rsi, [rip+ctx_b] / call swapcontext / dec rbp / jne again
xor edi, edi / mov eax, 231 / syscall
work: lea rdi, [rip+ctx_b] / lea rsi, [rip+ctx_a] / call swapcontext / jmp work
.data / ctx_a: .zero 80 / ctx_b: .zero 80 / stack: .zero 4096 / stack_end: .quad 0
"""

HELP = """
cetvm asm [--runtime]
cetvm dis
cetvm check
cetvm run [common]
cetvm replay [common] --schedule ITEMS or --mix NUMBER
cetvm bench NUMBER
cetvm smp [common] [--workers NUMBER]
common: --limit NUMBER --procs NUMBER --trace full or last --signals ITEMS
"""


def word(base, place):
    return f"[{base}+{8 * place}]" if place else f"[{base}]"


def save(base):
    return " / ".join(f"mov {word(base, place)}, {register}" for place, register in enumerate(KEPT))


def load(base):
    return " / ".join(f"mov {register}, {word(base, place)}" for place, register in enumerate(KEPT))


def text(block):
    block = block.strip().replace("SAVE", save("rdi"))
    block = re.sub(r"LOAD (\w+)", lambda found: load(found[1]), block)
    return "".join(line + "\n" for line in block.replace(" / ", "\n").split("\n"))


def runtime():
    return text(".text\n" + RUNTIME.strip())


def bench(swaps):
    return text(BENCH).replace("mov ebp, N\n", f"mov ebp, {swaps}\n")


def literals(path):
    """The texts of the constants of a file, which begin on the line below their name."""
    return re.findall(r'^const \w+: &str = "\\\n(.*?)";$', (CRATES / path).read_text(), re.M | re.S)


def wrong_texts():
    """The files whose literals are other texts. `bench_text` puts the line of the number between its two."""
    wanted = {
        "cet_ctx/src/runtime.rt": [runtime()],
        "cet_ctx/src/bench.rt": bench(1).split("mov ebp, 1\n"),
        "cet_cli/src/help.rt": [text(HELP)],
    }
    return [path for path, texts in wanted.items() if literals(path) != texts]


def answered(cetvm, words, given=b""):
    """The status of the program by these words on this input, and what it writes on both sides."""
    made = subprocess.run([cetvm, *words], input=given, capture_output=True)
    return made.returncode, made.stdout, made.stderr.decode(errors="replace")


def benched(cetvm, swaps):
    """What `bench` is to write: the end of a run of its program."""
    image = answered(cetvm, ["asm"], (bench(swaps) + "\n" + runtime()).encode())[1]
    report = answered(cetvm, ["run"], image)[1].decode()
    records = sum(map(int, re.findall(r"^thread \d+ records (\d+) ", report, re.M)))
    return 0, f"bench {swaps} records {records} {report.splitlines()[-1]}\n".encode() if report else b"", ""


def wrong_answers(cetvm):
    """What the program makes otherwise of a text that it carries."""
    alone = answered(cetvm, ["asm"], runtime().encode())
    if alone[0] or answered(cetvm, ["asm", "--runtime"]) != alone:
        yield "asm --runtime of an empty source isn't the image of the runtime"
    for words in ([], ["run", "x"]):
        line = f"cetvm: usage: word {len(words) or 1}\n"
        if answered(cetvm, words) != (1, b"", line + text(HELP)):
            yield f"behind the line `{line.rstrip()}` stands another text than the help"
    for swaps in (1, 10):
        if answered(cetvm, ["bench", str(swaps)]) != benched(cetvm, swaps):
            yield f"bench {swaps} isn't a run of its program"


def compared(cetvm):
    wrong = [f"crates/{path} has another text than its lines make" for path in wrong_texts()]
    there = os.access(cetvm, os.X_OK)
    wrong += wrong_answers(cetvm) if there else []
    for line in wrong:
        print(f"texts: {line}")
    if not there:
        print(f"texts: skipped what the program makes of its texts: no program at {cetvm}")
    if not wrong:
        print("texts: the runtime, the program of bench and the help as their lines make them")
    return 1 if wrong else 0


def main(words):
    made = {"runtime": runtime, "bench": bench, "help": lambda: text(HELP)}
    if words and words[0] in made:
        sys.stdout.write(made[words[0]](*map(int, words[1:])))
        return 0
    return compared(words[0] if words else CRATES / "cetvm/out/cetvm")


if __name__ == "__main__":
    sys.exit(main(sys.argv[1:]))
