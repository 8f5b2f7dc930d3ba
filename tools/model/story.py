"""What a report tells of the shadow stacks: the story of its records, in an order in which each restore finds its
token. Only the report is read, and the lengths of the calls in the program's listing."""
import re
from collections import Counter

from places import FIRST_REGION, PAGE, REGION_PAGES
from services import EXIT

ENTRY = re.compile(r"^  (\w+)(?: ([0-9a-f]{16}))?$")


class Wrong(Exception):
    """The report doesn't tell what the headline says."""


class Stack:
    """`entries` are pairs of a kind and a value, the newest last."""

    def __init__(self, start, end):
        self.start, self.end, self.entries, self.holder, self.left_for = start, end, [], "lost", None

    def top(self):
        return self.end - 8 * len(self.entries)

    def in_view(self):
        """Whether it leads to a stack that is current or parked, by those that it was left for."""
        stack, passed = self, []
        while stack.holder == "left" and stack not in passed:
            passed.append(stack)
            stack = stack.left_for
        return stack.holder not in ("left", "lost")


class Report:
    """`threads` has the numbers of records that the report tells."""

    def __init__(self, text):
        self.threads, self.records, self.stacks, self.process = {}, {}, [], None
        for line in text.splitlines()[1:]:
            fields = line.split(" ")
            if fields[0] == "thread":
                self.threads[int(fields[1])], self.records[int(fields[1])] = int(fields[3]), []
            elif fields[0] == "region":
                self.stacks.append((int(fields[1], 16), int(fields[2], 16), " ".join(fields[3:]), []))
            elif fields[0] == "process":
                self.process = line
            elif line.startswith("  "):
                kind, value = ENTRY.match(line).groups()
                self.stacks[-1][3].append((kind, value and int(value, 16)))
            else:
                thread, name, rip, code, a, b = fields
                self.records[int(thread)].append((name, int(rip, 16), int(code), int(a, 16), int(b, 16)))


    def has_token(self, start, size):
        """Whether a stack was made with a token: it was taken, or is parked still."""
        taken = any(name == "take" and a == start + size - 8 for records in self.records.values()
                    for name, _, _, a, _ in records)
        return taken or any(shown[0] == start and shown[2] != "lost" for shown in self.stacks)

    def order(self):
        """An order of the restores, as threads, in which each finds its token, and each thread is born before."""
        ways, seen = [((), {0: 0}, Counter())], set()
        while ways:
            order, places, tokens = ways.pop()
            places, tokens = dict(places), Counter(tokens)
            self.pass_makers(places, tokens)
            state = tuple(sorted(places.items()))
            if state in seen:
                continue
            seen.add(state)
            ahead = {thread: self.records[thread][place] for thread, place in places.items()
                     if place < len(self.records[thread])}
            if not ahead and len(places) == len(self.threads):
                return order
            for thread, (_, _, _, place, _) in ahead.items():
                if tokens[place]:
                    left = tokens - Counter([place])
                    ways.append((order + (thread,), places | {thread: places[thread] + 1}, left))
        raise Wrong("in no order each restore finds its token")

    def pass_makers(self, places, tokens):
        """Each thread's records up to its next restore, with the tokens that they make."""
        waiting = list(places)
        while waiting:
            thread = waiting.pop()
            records = self.records[thread]
            while places[thread] < len(records) and records[places[thread]][0] != "take":
                name, _, _, a, b = records[places[thread]]
                places[thread] += 1
                if name == "born":
                    places[a] = 0
                    waiting.append(a)
                elif name == "save" or name == "claim" and self.has_token(a, b):
                    tokens[a if name == "save" else a + b - 8] += 1


class Story:
    def __init__(self, report, program):
        self.report, self.program = report, program
        self.stacks = [Stack(FIRST_REGION, FIRST_REGION + PAGE * REGION_PAGES)]
        self.current = {0: self.stacks[0]}
        self.stacks[0].holder = "current 0"
        self.next = {thread: 0 for thread in report.threads}
        self.returns, self.takes = 0, 0

    def require(self, holds, text):
        if not holds:
            raise Wrong(text)

    def stack_with_token(self, place):
        return next((stack for stack in self.stacks if stack.holder == "parked" and stack.top() - 8 == place), None)

    def tell(self, order):
        """The records, with the restores in this order of threads."""
        for thread in order:
            self.pass_others()
            self.one(thread)
        self.pass_others()
        self.compare_stacks()

    def pass_others(self):
        """Each thread's records up to its next restore. They follow whatever the other threads do."""
        moved = True
        while moved:
            moved = False
            for thread in sorted(self.current):
                records = self.report.records[thread]
                while self.next[thread] < len(records) and records[self.next[thread]][0] != "take":
                    self.one(thread)
                    moved = True

    def one(self, thread):
        record = self.report.records[thread][self.next[thread]]
        self.next[thread] += 1
        self.follow(thread, record)

    def follow(self, thread, record):
        name = record[0]
        if hasattr(self, name):
            getattr(self, name)(thread, self.current[thread], *record[1:])

    def remove(self, stack, thread):
        self.require(stack.entries, f"thread {thread} takes an entry off an empty stack")
        kind, value = stack.entries.pop()
        if kind == "prev":
            value.holder = "lost"
        return kind, value

    def pointer(self, stack, found, what):
        self.require(stack.top() == found, f"{what}: SSP is {found:x} and not {stack.top():x}")

    def call(self, thread, stack, rip, _, target, ssp):
        after = rip + self.program.instructions[rip].length
        if ssp != stack.top() or target != after:
            stack.entries.append(("ret", after))
        self.pointer(stack, ssp, f"call at {rip:x}")

    def ret(self, thread, stack, rip, _, target, ssp):
        kind, value = self.remove(stack, thread)
        if kind == "ret":
            self.require(value in (None, target), f"ret at {rip:x} to {target:x}, and not to {value or 0:x}")
        else:
            self.require(kind in ("prev", "blank") and not self.program.executable(target),
                         f"ret at {rip:x} to {target:x} by an entry {kind}")
        self.returns += 1
        self.pointer(stack, ssp, f"ret at {rip:x}")

    def rise(self, thread, stack, rip, _, ssp, count):
        for _ in range(count):
            self.remove(stack, thread)
        self.pointer(stack, ssp, f"raise at {rip:x}")

    def take(self, thread, stack, rip, _, place, before):
        self.pointer(stack, before, f"take at {rip:x}")
        other = self.stack_with_token(place)
        self.require(other is not None, f"take at {rip:x}: there is no token at {place:x}")
        other.entries.append(("prev", stack))
        stack.holder, stack.left_for, other.holder = "left", other, f"current {thread}"
        self.current[thread] = other
        self.takes += 1

    def save(self, thread, stack, rip, _, place, ssp):
        self.require(stack.entries and stack.entries[-1][0] == "prev", f"save at {rip:x}: no stack was left")
        old = stack.entries.pop()[1]
        self.require(old.top() - 8 == place, f"save at {rip:x}: the token is at {place:x}")
        old.holder = "parked"
        self.pointer(stack, ssp, f"save at {rip:x}")

    def claim(self, thread, _, rip, __, start, size):
        stack = Stack(start, start + (size + PAGE - 1) // PAGE * PAGE)
        self.stacks.append(stack)
        shown = next((one for one in self.report.stacks if one[0] == start), None)
        self.require(shown is not None, f"the stack at {start:x} isn't shown")
        if self.report.has_token(start, size):
            stack.entries = [("blank", None)] * ((stack.end - start - size) // 8)
            stack.holder = "parked"

    def born(self, thread, _, rip, __, child, ssp):
        stack = Stack(ssp - PAGE * REGION_PAGES, ssp)
        self.require(child not in self.current, f"thread {child} is born twice")
        stack.holder = f"current {child}"
        self.stacks.append(stack)
        self.current[child] = stack

    def signal(self, thread, stack, rip, _, number, ssp):
        stack.entries += [("frame", stack.top()), ("ret", None)]
        self.pointer(stack, ssp, f"signal at {rip:x}")

    def sigret(self, thread, stack, rip, _, target, ssp):
        self.require(stack.entries and stack.entries[-1][0] == "frame", f"sigret at {rip:x} without a frame")
        self.require(stack.entries.pop()[1] == ssp, f"sigret at {rip:x} to SSP {ssp:x}")

    def sys(self, thread, stack, rip, _, number, result):
        if number == EXIT:
            stack.holder = "lost"

    def compare_stacks(self):
        """The stacks shown are those of the story, and none is the current one of two threads."""
        for thread, count in self.report.threads.items():
            self.require(count == len(self.report.records[thread]), f"thread {thread} has another number of records")
        holders = [shown[2] for shown in self.report.stacks if shown[2].startswith("current")]
        self.require(len(holders) == len(set(holders)), "a thread has two stacks")
        made = {(stack.start, stack.end): stack for stack in self.stacks}
        self.require(sorted(made) == [shown[:2] for shown in self.report.stacks], "the stacks shown aren't those made")
        for start, end, holder, entries in self.report.stacks:
            stack = made[start, end]
            told = stack.holder if stack.in_view() else "lost"
            self.require(told == holder, f"{start:x} is {holder}, and not {told}")
            if told == "lost":
                continue
            told = [(kind, value.top() if kind == "prev" else value) for kind, value in reversed(stack.entries)]
            self.require(len(told) == len(entries) and all(same(*pair) for pair in zip(told, entries)),
                         f"the entries of the stack at {start:x} are others")


def same(told, shown):
    return told[0] == shown[0] and (told[1] is None or told[1] == shown[1])


setattr(Story, "raise", Story.rise)


def told(text, program):
    """The story of a report."""
    report = Report(text)
    story = Story(report, program)
    story.tell(report.order())
    return story
