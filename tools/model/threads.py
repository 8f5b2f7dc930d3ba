"""A thread: from its first boundary to its end, as a generator that yields accesses and gets their answers."""
import instructions
import services
import signals
from listing import RAX, RCX, RSP, R11
from places import (EXIT_WORD, FETCH, FIRST_REGION, MASK, PAGE, REGION_PAGES, RETURN_WORD, STACK_TOP, Fault, canonical,
                    page_of, pending_word, token_place)

SYSCALL_BYTES = 2
RT_SIGRETURN = 15
SERVICES = {
    1: (services.write, 3), 9: (services.mmap, 4), 11: (services.munmap, 2), 13: (signals.rt_sigaction, 4),
    14: (signals.rt_sigprocmask, 4), 24: (services.sched_yield, 0), 56: (services.clone, 2),
    60: (services.exit_thread, 1), 158: (services.arch_prctl, 2), 186: (services.gettid, 0),
    231: (services.exit_group, 1), 234: (services.tgkill, 3), 453: (services.map_shadow_stack, 3),
}


class Busy(Exception):
    """The supervisor stack has another holder."""


class Thread:
    """`run` is shared by all threads: the program, the book, the settings and where threads are born."""

    def __init__(self, run, number):
        self.run, self.number = run, number
        self.program, self.book = run.program, run.book
        self.registers = [0] * 16
        self.registers[RSP] = STACK_TOP
        self.rip, self.flags, self.mask = run.program.entry, 2, 0
        self.made, self.ssp = FIRST_REGION, FIRST_REGION + PAGE * REGION_PAGES
        self.records, self.posted, self.end, self.due = [], 0, None, None
        self.listed = [(count, signal) for thread, count, signal in run.settings.signals if thread == number]

    def bear(self, number, stack, region):
        child = Thread(self.run, number)
        child.registers = list(self.registers)
        child.registers[RAX], child.registers[RSP] = 0, stack
        child.rip, child.flags, child.mask = self.rip + SYSCALL_BYTES & MASK, self.flags, self.mask
        child.registers[RCX], child.registers[R11] = child.rip, child.flags
        child.made, child.ssp = region.start, region.end
        self.run.add(child)

    def note(self, rip, name, code, a, b):
        self.records.append((rip, name, code, a, b))
        if len(self.records) == self.run.settings.limit and self.end is None:
            self.end = "limit"

    def life(self):
        while self.end is None:
            if self.due is not None:
                yield from self.entered(lambda: self.delivery(self.due.signal(), self.due))
                continue
            yield from self.post()
            if (yield ("load", EXIT_WORD)):
                self.end = "group"
                continue
            waiting = (yield ("load", pending_word(self.number))) & ~self.mask & (1 << 31) - 1
            if waiting:
                signal = (waiting & -waiting).bit_length()
                yield from self.entered(lambda: self.delivery(signal, None))
            else:
                yield from self.instruction()

    def post(self):
        while self.posted < len(self.listed) and self.listed[self.posted][0] <= len(self.records):
            yield ("or", pending_word(self.number), 1 << self.listed[self.posted][1] - 1)
            self.posted += 1

    def instruction(self):
        rip = self.rip
        try:
            if not canonical(rip):
                raise Fault("#GP")
            found = yield from self.fetch()
            if found.name == "syscall":
                yield from self.entered(self.service)
            else:
                self.note(rip, *(yield from instructions.run(self, found)))
        except Fault as fault:
            self.due = fault
            self.note(rip, fault.name, fault.code, fault.a, fault.b)

    def fetch(self):
        """The instruction at RIP. Whatever the look at a page that can't be fetched answers, that is the fault."""
        if not self.program.executable(self.rip):
            page = page_of(self.rip)
            entry = 0 if page is None else (yield ("look", page))
            raise Fault("#PF", entry & 1 | 4 | FETCH, self.rip, entry)
        found = self.program.at(self.rip)
        if found is None:
            raise Fault("#UD")
        return found

    def entered(self, work):
        """Work of the kernel between the gate's way in and its way out. It tells what is done at the last exchange, and
        its record."""
        stack = self.number % self.run.settings.procs
        place, rip = token_place(stack), self.rip
        yield ("look", page_of(place))
        found = yield ("exchange", place, place, place | 1)
        if found != place:
            self.note(rip, "busy", 0, place, found)
            return
        self.book.busied(self.number, stack)
        yield ("store", place - 8, RETURN_WORD)
        last, record = yield from work()
        require_word((yield ("load", place - 8)), RETURN_WORD)
        require_word((yield ("exchange", place, place | 1, place)), place | 1)
        if last is not None:
            last()
        self.book.freed(self.number, stack)
        if record[0] in ("kill", "signal", "ignore"):
            self.due = None
        self.note(rip, record[0], 0, record[1], record[2])

    def delivery(self, signal, fault):
        return signals.deliver(self, signal, fault)

    def service(self):
        number = self.registers[RAX]
        if number == RT_SIGRETURN:
            return (yield from signals.rt_sigreturn(self))
        service, count = SERVICES.get(number, (services.missing, 0))
        arguments = [self.registers[register] for register in services.ARGUMENTS[:count]]
        try:
            answer = yield from service(self, *arguments)
        except services.Refused as error:
            answer = services.Answer(-error.args[0] & MASK)

        def last():
            self.rip = self.rip + SYSCALL_BYTES & MASK
            self.registers[RAX], self.registers[RCX], self.registers[R11] = answer.result, self.rip, self.flags
            if answer.last is not None:
                answer.last()
        return last, answer.record or ("sys", number, answer.result)


def require_word(found, wanted):
    if found != wanted:
        raise AssertionError(f"the gate's way out finds {found:x} and not {wanted:x}")
