"""The differences between cetvm and Bochs, by name, each with an example. The page docs/differences.md shows the same
examples, and check.py asks that it does."""
from pathlib import Path

from cases import NOP, UD2, Case, restore
from instructions import RAX, RBX, RSP, at, do, load_number, text
from model import FIRST_REGION, KERNEL, STATUS, AF, Fault

PAGE = Path(__file__).resolve().parents[2] / "docs" / "differences.md"

DIFFERENCES = {
    "stack_fault": "`#SS(0)` there and `#GP(0)` here, where an address of the program stack isn't canonical",
    "call_pushes_first": "a CALL that faults at the shadow stack or at its target has written its return address there, "
                         "and nothing here",
    "restore_write_bit": "a page fault of RSTORSSP has the write bit clear there and set here",
    "save_zero_bytes": "SAVEPREVSSP stores four zero bytes first there, and has its page fault at them",
    "token_with_bit_2": "a restore token may have bit 2 set there, and CF tells it; here it is no token",
    "ssp_not_canonical": "an SSP with a word below that isn't canonical gives `#GP(0)` there and `#PF` here",
    "adjust_flag": "AF is kept, and cleared by RSTORSSP, there; here it reads 0",
}


def examples():
    """An example of each, by name."""
    there = FIRST_REGION[1] - 64
    programs = {
        "stack_fault": [load_number(RSP, 0x800000000000), do("ret")],
        "call_pushes_first": [load_number(RBX, 0x800000000000), do("call_register", RBX)],
        "restore_write_bit": [load_number(RBX, FIRST_REGION[1]), do("rstorssp", memory=at(RBX))],
        "save_zero_bytes": [NOP, do("call", number="f"), UD2, "f", do("saveprevssp")],
    }
    for name, program in programs.items():
        yield Case(name, program)
    yield Case("token_with_bit_2", restore(there) + [UD2], planted={there: there + 13})
    yield Case("ssp_not_canonical", [do("call", number=1), NOP], ssp=KERNEL)
    yield Case("adjust_flag", [UD2], [do("mov_number_32", RAX, number=15), do("add_number", RAX, number=1)])


def end_text(case, bochs):
    """The fault at which an example ends, RFLAGS and SSP then, and the words that it has changed."""
    machine = case.start.copy(bochs)
    old = dict(machine.words)
    fault = None
    while fault is None:
        try:
            machine.step()
        except Fault as found:
            fault = found
    where = f" at {fault.a:x}" if fault.name == "#PF" else ""
    flags = machine.flags & STATUS & ~(0 if bochs else AF) | 2
    words = "".join(f" [{place:x}]={word:x}" for place, word in machine.words.items() if old.get(place, 0) != word)
    return f"{fault.name} {fault.code}{where}, rflags={flags:x} ssp={machine.ssp:x}{words}"


def block(case):
    """An example as the page shows it."""
    lines = [f"[{place:x}]={word:x}" for place, word in case.start.words.items()]
    if case.start.ssp != FIRST_REGION[1]:
        lines.append(f"ssp={case.start.ssp:x}")
    lines += [f"{place:x}: {text(instruction)}" for place, instruction in case.instructions.items() if place < case.end]
    return "\n".join(["```", *lines, f"here:  {end_text(case, False)}", f"there: {end_text(case, True)}", "```"])


def missing():
    """The names of the examples that the page doesn't show so."""
    page = PAGE.read_text()
    return [case.name for case in examples() if f"`{case.name}`" not in page or block(case) not in page]
