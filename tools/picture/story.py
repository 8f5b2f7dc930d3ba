"""What the records tell of the shadow stacks: the entries as bars in time, who holds each stack, and what passes
between stacks. Times are places of the axis (order.py)."""
from bisect import bisect_right
from collections import namedtuple

from order import Order, is_missed
from report import FIRST_END, Faulty

EXIT = 60

# An entry: its depth in the stack, from 0, the places from and to which it stands, and the records of both.
Bar = namedtuple("Bar", "stack depth start end kind value opened closed")
# A time in which a stack is "current T", "parked", "left" or "lost".
Hold = namedtuple("Hold", "stack start end holder")
# From a stack or a thread to one: kind is "take", "save", "born" or "missed".
Arrow = namedtuple("Arrow", "place kind source target record")


class Stack:
    """A region, the thread that made it, and what stands on it now: `open` are pairs of a bar, without its end, and
    its address."""

    def __init__(self, number, region):
        self.number, self.start, self.end, self.maker = number, region.start, region.end, 0
        self.open, self.holder, self.since = [], None, 0


class Story:
    """`bars`, `holds` and `arrows` of a report, `last` place, and `order` of the records."""

    def __init__(self, report):
        self.report, self.order = report, Order(report)
        self.last = max((places[-1] for places in self.order.places if places), default=0)
        self.stacks = [Stack(number, region) for number, region in enumerate(report.regions)]
        self.starts = [stack.start for stack in self.stacks]
        self.bars, self.holds, self.arrows = [], [], []
        self.pointers = {0: FIRST_END}
        self.hold(self.stacks[0], "current 0", 1)
        for record in self.order.records:
            self.follow(record, self.order.place(record))
        self.finish()

    def follow(self, record, place):
        told = getattr(self, "tell_" + record.name.strip("#"), None)
        if told:
            told(record, place)

    def stack_at(self, pointer, record):
        """The stack of a pointer: from its start up to its end, with it."""
        number = bisect_right(self.starts, pointer) - 1
        if number < 0 or pointer > self.stacks[number].end or pointer % 8:
            raise Faulty(record.line, f"no stack of this report has SSP {pointer:x}")
        return self.stacks[number]

    def current(self, record):
        if record.thread not in self.pointers:
            raise Faulty(record.line, f"no record tells of the birth of thread {record.thread}")
        return self.stack_at(self.pointers[record.thread], record)

    def same_stack(self, record, pointer):
        stack = self.current(record)
        if self.stack_at(pointer, record) is not stack:
            raise Faulty(record.line, f"SSP {pointer:x} is on another stack than that of thread {record.thread}")
        return stack

    def push(self, stack, address, kind, value, record, place):
        bar = Bar(stack.number, (stack.end - address) // 8 - 1, place, None, kind, value, record, None)
        stack.open.append((bar, address))

    def pop(self, stack, pointer, record, place):
        """Closes the entries below the pointer. A stack that was left for one of them is lost, but for a save."""
        while stack.open and stack.open[-1][1] < pointer:
            bar = stack.open.pop()[0]
            self.bars.append(bar._replace(end=place, closed=record))
            if bar.kind == "prev" and record.name != "save":
                self.hold(self.stack_at(bar.value, record), "lost", place)

    def hold(self, stack, holder, place):
        if stack.holder is not None and place > stack.since:
            self.holds.append(Hold(stack.number, stack.since, place, stack.holder))
        stack.holder, stack.since = holder, max(place, stack.since)

    def arrow(self, place, kind, source, target, record):
        self.arrows.append(Arrow(place, kind, source, target, record))

    def tell_call(self, record, place):
        stack = self.same_stack(record, record.b)
        if record.b < self.pointers[record.thread]:
            self.push(stack, record.b, "call", record.a, record, place)
        self.pointers[record.thread] = record.b

    def tell_ret(self, record, place):
        self.pop(self.same_stack(record, record.b), record.b, record, place)
        self.pointers[record.thread] = record.b

    tell_sigret = tell_ret

    def tell_raise(self, record, place):
        self.pop(self.same_stack(record, record.a), record.a, record, place)
        self.pointers[record.thread] = record.a

    def tell_take(self, record, place):
        source, target = self.current(record), self.stack_at(record.a, record)
        if target is not source:
            self.hold(source, "left", place)
        self.hold(target, f"current {record.thread}", place)
        self.push(target, record.a, "prev", record.b, record, place)
        self.arrow(place, "take", ("stack", source.number), ("stack", target.number), record)
        self.pointers[record.thread] = record.a

    def tell_save(self, record, place):
        source, target = self.same_stack(record, record.b), self.stack_at(record.a, record)
        self.pop(source, record.b, record, place)
        self.hold(target, "parked", place)
        self.arrow(place, "save", ("stack", source.number), ("stack", target.number), record)
        self.pointers[record.thread] = record.b

    def tell_signal(self, record, place):
        stack = self.same_stack(record, record.b)
        self.push(stack, record.b + 8, "frame", record.a, record, place)
        self.push(stack, record.b, "restorer", record.a, record, place)
        self.pointers[record.thread] = record.b

    def tell_claim(self, record, place):
        stack = self.stack_at(record.a, record)
        stack.maker = record.thread
        self.hold(stack, "parked" if record.line in self.order.made else "lost", place)

    def tell_born(self, record, place):
        stack = self.stack_at(record.b, record)
        if record.a < len(self.report.threads):
            stack.maker = record.a
        self.hold(stack, f"current {record.a}", place)
        self.pointers[record.a] = record.b
        if record.a < len(self.report.threads):
            self.arrow(place, "born", ("thread", record.thread), ("thread", record.a), record)

    def tell_sys(self, record, place):
        if record.a == EXIT:
            stack = self.current(record)
            self.pop(stack, stack.end, record, place)
            self.hold(stack, "lost", place)

    def tell_CP(self, record, place):
        number = bisect_right(self.starts, record.a) - 1
        if is_missed(record) and number >= 0 and record.a < self.stacks[number].end:
            self.arrow(place, "missed", ("thread", record.thread), ("stack", number), record)

    def finish(self):
        """Closes what is open at the end."""
        for stack in self.stacks:
            for bar, _ in stack.open:
                self.bars.append(bar._replace(end=self.last + 1))
            if stack.holder is not None:
                self.holds.append(Hold(stack.number, stack.since, self.last + 1, stack.holder))
        self.bars.sort(key=lambda bar: (bar.stack, bar.start, bar.depth))
