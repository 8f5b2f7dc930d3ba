"""Programs whose records were worked out by hand from the documents: the model has to give these lines, among others,
and the reports beside the examples have those of EXAMPLES. In the lines fields have no leading zeros, and a `-` stands
for any field."""
from collections import namedtuple

Worked = namedtuple("Worked", "name words source lines process")
Stated = namedtuple("Stated", "lines process")

SHADOW_STACK = "mov edi, 0\nmov esi, 4096\nmov edx, 1\nmov eax, 453\nsyscall\nmov rbx, rax\n"
CLONE = "mov edi, 0x10900\nlea rsi, [rsp-4096]\nmov eax, 56\nsyscall\n"
RACE = SHADOW_STACK + CLONE + "rstorssp [rbx+4088]\ns: jmp short s\n"
BUSY = CLONE + "mov eax, 186\nsyscall\nmov edi, 0\nmov eax, 60\nsyscall\n"
EXIT = "mov edi, 7\nmov eax, 60\nsyscall\n"
HANDLER = """_start: mov edi, 10
lea rsi, [rip+action]
mov edx, 0
mov r10d, 8
mov eax, 13
syscall
nop
mov edi, 3
mov eax, 231
syscall
h: ret
r: mov eax, 15
syscall
.data
action: .quad h, 0x04000000, r, 0
"""
RESTORER = """_start: mov edi, 10
lea rsi, [rip+action]
mov edx, 0
mov r10d, 8
mov eax, 13
syscall
.data
action: .quad 0x401000, 0x04000000, {}, 0
"""
BIRTHS = """mov edi, 0x10900
lea rsi, [rsp-4096]
s: mov eax, 56
syscall
test rax, rax
js done
jne s
mov eax, 60
syscall
done: mov eax, 231
syscall
"""

ROWS = (
    Worked("race, the first thread", "replay --schedule 0*47", RACE,
           ("0 take - 0 20000aff8 200009000", "1 #CP - 4 20000aff8 200009003"), "killed 11"),
    Worked("race, the second thread", "replay --schedule 0*41,1*4", RACE,
           ("1 take - 0 20000aff8 200014000", "0 #CP - 4 20000aff8 200014003"), "killed 11"),
    Worked("signal without a handler", "run --signals 0:0:10", EXIT, ("0 kill 401000 0 a 0",), "killed 10"),
    Worked("signal with a handler", "run --signals 0:6:10", HANDLER,
           ("0 signal 40101e 0 a 200008ff0", "0 ret - 0 - 200008ff8", "0 sigret - 0 40101e 200009000"), "exit 3"),
    Worked("rt_sigreturn at the start", "run", "mov eax, 15\nsyscall\n", ("0 kill 401005 0 b 0",), "killed 11"),
    Worked("rt_sigreturn in a function", "run", "call f\nud2\nf: lea rsp, [rsp-512]\nmov eax, 15\nsyscall\n",
           ("0 kill - 0 b 0",), "killed 11"),
    Worked("restorer in data", "run --limit 6", RESTORER.format("action"), ("0 sys - 0 d ffffffffffffffea",),
           "limit 0"),
    Worked("restorer elsewhere", "run --limit 6", RESTORER.format("0x20000b001"), ("0 sys - 0 d ffffffffffffffea",),
           "limit 0"),
    Worked("busy gate", "replay --procs 1 --schedule 0*21,1*6", BUSY,
           ("1 busy - 0 ffff800000002ff8 ffff800000002ff9", "1 sys - 0 ba 3e9", "0 sys - 0 ba 3e8"), "exit 0"),
    Worked("the 32nd birth", "run", BIRTHS, ("0 sys - 0 38 fffffffffffffff5", "0 born - 0 1f 200120000"), "exit 0"),
    Worked("too many pages", "run --limit 5", "mov edi, 0\nmov esi, 4153344\nmov edx, 1\nmov eax, 453\nsyscall\n",
           ("0 sys - 0 1c5 fffffffffffffff4",), "limit 0"),
    Worked("status in a shadow stack", "run --limit 4",
           "mov edi, 0x5005\nmov rsi, 0x200001000\nmov eax, 158\nsyscall\n",
           ("0 sys - 0 9e fffffffffffffff2",), "limit 0"),
    Worked("store to a shadow stack", "run", "mov rsi, 0x200001000\nmov [rsi], 1\n",
           ("0 #PF - 7 200001000 8000000000941065",), "killed 11"),
)


EXAMPLES = {
    "exit_seven": Stated(("thread 0 records 3 exit 7", "0 step 401000 0 7 2", "0 step 401005 0 3c 2", "0 sys 40100a 0 3c 7",
                          "region 200001000 200009000 lost"), "exit 7"),
    "three_calls": Stated(("0 call 401000 0 401007 200008ff8", "0 call 401007 0 40100d 200008ff0",
                           "0 call 40100d 0 401013 200008fe8", "0 step 401013 0 0 2", "0 step 401018 0 e7 2",
                           "0 sys 40101d 0 e7 0", "region 200001000 200009000 current 0"), "exit 0"),
    "smashed_return": Stated(("0 #CP 40100f 1 0 401005", "0 kill 40100f 0 b 0"), "killed 11"),
    "call_to_next_line": Stated(("0 call 401007 0 40100c 200008ff8", "0 #CP 40100c 1 40100c 401005"), "killed 11"),
    "bare_return": Stated(("0 #PF 401000 68 200009000 0", "0 kill 401000 0 b 0"), "killed 11"),
    "incssp_counts_none": Stated(("0 raise - 0 200008ff8 0",), "exit 0"),
    "incssp_counts_low_byte": Stated(("0 raise - 0 200009000 1",), "exit 0"),
    "incssp_counts_deep": Stated(("0 raise - 0 200009000 ff", "0 raise - 0 200008800 0"), "exit 0"),
    "incssp_counts_past_the_end": Stated(("0 #PF - 68 200009000 0",), "killed 11"),
    "incssp_counts_empty": Stated(("0 #PF - 68 200009000 0",), "killed 11"),
    "there_and_back": Stated((
        "0 claim 401014 0 20000a000 1000", "0 step 401016 0 20000a000 2", "0 take 401019 0 20000aff8 200009000",
        "0 step 401021 0 200009003 2", "0 save 401028 0 200008ff8 20000b000", "0 step 40102c 0 200008ff8 2",
        "0 step 401036 0 200009001 2", "0 take 401039 0 200008ff8 20000b000", "0 save 40103d 0 20000aff8 200009000",
        "0 step 401041 0 200009000 2", "region 200001000 200009000 current 0", "region 20000a000 20000b000 parked"),
        "exit 0"),
    "token_race": Stated(("0 take - 0 20000aff8 200009000", "1 #CP - 4 20000aff8 200009003",
                          "0 born - 0 1 200014000"), "killed 11"),
    "token_race_of_the_second": Stated(("1 take - 0 20000aff8 200014000", "0 #CP - 4 20000aff8 200014003"), "killed 11"),
    "chain_of_stacks": Stated((
        "0 take - 0 20000aff8 200009000", "0 take - 0 20000cff8 20000aff8", "0 save - 0 20000aff0 20000d000",
        "0 take - 0 20000aff0 20000d000", "0 save - 0 20000cff8 20000aff8", "0 save - 0 200008ff8 20000b000",
        "region 200001000 - parked", "region 20000a000 - current 0", "region 20000c000 - parked"), "exit 0"),
    "save_without_token": Stated(("0 #PF 401008 70 400ff8 0",), "killed 11"),
    "save_without_token_on_an_empty_stack": Stated(("0 #PF 401001 68 200009000 0",), "killed 11"),
    "save_without_token_with_carry": Stated(("0 #GP 401009 0 0 0",), "killed 11"),
    "map_shadow_stack_arguments": Stated((
        "0 sys - 0 1c5 ffffffffffffffe4", "0 sys - 0 1c5 ffffffffffffffea", "0 sys - 0 1c5 ffffffffffffffde",
        "0 sys - 0 1c5 ffffffffffffffef", "0 sys - 0 1c5 ffffffffffffffb5", "0 claim - 0 20000a000 8",
        "0 claim - 0 20000c000 1000", "0 claim - 0 20000e000 fff", "region 20000e000 20000f000 lost"), "exit 0"),
    "map_shadow_stack_blanks": Stated(("0 claim - 0 20000a000 8", "0 step - 0 20000a009 2",
                                       "0 take - 0 20000a000 200009000"), "exit 0"),
    "listed_signal_kills": Stated(("thread 0 records 1 group", "0 kill 401000 0 a 0"), "killed 10"),
    "handler_returns": Stated(("thread 0 records 14 group", "0 signal - 0 a 200008ff0", "0 ret - 0 - 200008ff8",
                               "0 sigret - 0 - 200009000"), "exit 3"),
    "signal_and_longjmp": Stated(("0 signal - 0 a 200008ff0", "0 raise - 0 200009000 3"), "exit 3"),
    "signal_and_longjmp_in_a_call": Stated(("0 signal - 0 a 200008fe8", "0 raise - 0 200008ff8 3",
                                            "0 step - 0 200008ff8 -", "0 ret - 0 - 200009000"), "exit 6"),
    "sigreturn_forged": Stated(("0 kill - 0 b 0",), "killed 11"),
    "sigreturn_forged_at_the_start": Stated(("0 kill 401005 0 b 0",), "killed 11"),
    "restorer_refused": Stated(("0 sys - 0 d ffffffffffffffea", "0 sys - 0 d 0"), "exit 0"),
    "return_into_token": Stated(("0 ret - 0 200009003 20000b000", "0 #PF 200009003 20 200009003 0",
                                 "region 200001000 200009000 lost"), "killed 11"),
    "busy_gate": Stated(("1 busy - 0 ffff800000002ff8 ffff800000002ff9", "1 sys - 0 ba 3e9", "0 sys - 0 ba 3e8",
                         "thread 0 - - exit 0", "thread 1 - - exit 0"), "exit 0"),
    "busy_gate_of_four": Stated(("1 sys - 0 ba 3e9", "0 sys - 0 ba 3e8"), "exit 0"),
    "limits_reached": Stated(("thread 0 records 3 limit", "0 step 401000 0 401000 2"), "limit 0"),
    "limits_reached_by_births": Stated(("0 born - 0 1f 200120000", "0 sys - 0 38 fffffffffffffff5"), "exit 0"),
    "limits_reached_by_pages": Stated(("0 sys 401014 0 1c5 fffffffffffffff4", "0 sys 40102a 0 1c5 fffffffffffffff4"),
                                      "exit 0"),
    "kernel_forging": Stated(("0 sys - 0 9e fffffffffffffff2", "0 #PF - 7 200001000 8000000000941065"), "killed 11"),
    "bench_twice": Stated(("thread 0 records 148 group",), "exit 0"),
    "four_threads_of_contexts": Stated(("thread 0 - - exit 0", "thread 1 - - exit 0", "thread 2 - - exit 0",
                                        "thread 3 - - exit 0"), "exit 0"),
}
# What the report of an example doesn't have.
ABSENT = {"busy_gate_of_four": " busy "}


def agrees(line, record):
    return all(field in ("-", shown.lstrip("0") or "0") or place < 2 and field == shown
               for place, (field, shown) in enumerate(zip(line.split(" "), record.split(" "))))


def missing(row, report):
    """The lines that the report doesn't have."""
    lines = report.splitlines()
    absent = [line for line in row.lines if not any(agrees(line, record) for record in lines[1:])]
    return absent + ([] if lines[-1] == f"process {row.process}" else [f"process {row.process}"])
