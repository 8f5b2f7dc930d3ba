"""Programs whose records were worked out by hand. The model has to give them, so that its records are
right by more than its agreement with cetvm."""
from cases import NOP, UD2, Case, calls, regions, restore
from guest import expected
from instructions import RAX, RBX, RCX, RDX, at, do, load_number

SAVE = do("saveprevssp")
FIRST = "region 0000000200001000 0000000200009000"
SECOND = "region 000000020000a000 000000020000b000"


def programs():
    """Name, program, the records that are compared, as name, code, a and b, and lines of the report on stacks."""
    before, (there,) = regions(4096)
    back = 0x200008FF8
    yield (Case("there_and_back",
                [*restore(there), do("mov_load", RAX, at(RBX)), SAVE, load_number(RCX, back), do("mov_load", RAX, at(RCX)),
                 do("rstorssp", memory=at(RCX)), SAVE, do("rdsspq", RDX), UD2], before),
           ["take 0 20000aff8 200009000", "step 0 200009003 2", "save 0 200008ff8 20000b000", "step 0 200009001 2",
            "take 0 200008ff8 20000b000", "save 0 20000aff8 200009000", "step 0 200009000 2"],
           [f"{FIRST} current 0\n{SECOND} parked\nprocess"])
    two, (first, second) = regions(4096, 4096)
    yield (Case("chain_of_stacks", [*restore(first), *restore(second), SAVE, *restore(first - 8), SAVE, SAVE, UD2], two),
           ["take 0 20000aff8 200009000", "take 0 20000cff8 20000aff8", "save 0 20000aff0 20000d000",
            "take 0 20000aff0 20000d000", "save 0 20000cff8 20000aff8", "save 0 200008ff8 20000b000"],
           [f"{FIRST} parked\n{SECOND} current 0\nregion 000000020000c000 000000020000d000 parked\nprocess"])
    yield (Case("return_into_token", [*restore(there), do("mov_load", RAX, at(RBX)), do("push_register", RAX), do("ret")],
                before),
           ["take 0 20000aff8 200009000", "ret 0 200009003 20000b000", "#PF 20 200009003 0", "kill 0 b 0"],
           [f"{FIRST} lost\n{SECOND} current 0\nprocess killed 11"])
    yield (Case("left", [*calls(1), *restore(there), UD2], before),
           ["take 0 20000aff8 200008ff8", "#UD 0 0 0", "kill 0 4 0"],
           [f"{FIRST} left\n  ret 000000000040101b\n{SECOND} current 0\n  prev 0000000200008ff8\nprocess killed 4"])
    yield (Case("save_without_token", [do("stc"), SAVE]), ["#PF 68 200009000 0", "kill 0 b 0"],
           [f"{FIRST} current 0\nprocess"])
    for carry, fault in (((), "#PF 70 400ff8 0"), ((do("stc"),), "#GP 0 0 0")):
        yield Case("save_without_token, called", [NOP, do("call", number="f"), UD2, "f", *carry, SAVE]), [fault], []
    for depth, value, record in ((1, 0, "raise 0 200008ff8 0"), (255, 255, "raise 0 200009000 ff"),
                                 (256, 256, "raise 0 200008800 0"), (1, 257, "raise 0 200009000 1"),
                                 (1, 2, "#PF 68 200009000 0"), (0, 0, "#PF 68 200009000 0")):
        program = [*calls(depth), load_number(RCX, value), do("incsspq", RCX), UD2]
        yield Case(f"incssp_counts {depth} {value}", program), [record], []


def check():
    """The names of the programs that the model gives other records or stacks."""
    wrong = []
    for case, records, lines in programs():
        report = expected(case)[2]
        given = [line.split(" ") for line in report.split("\n") if line.startswith("0 ")]
        given = [f"{name} {code} {int(a, 16):x} {int(b, 16):x}" for _, name, _, code, a, b in given]
        rest = iter(given)
        if not all(record in rest for record in records) or not all(line in report for line in lines):
            wrong.append(case.name)
    return wrong
