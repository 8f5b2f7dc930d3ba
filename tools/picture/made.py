"""Reports that are made up, for check.py: threads that call, return, switch stacks and take signals at random. They
keep the form of a report and the rules of the shadow stacks, and are those of no program."""
import random

from report import FIRST_END, FIRST_START, PAGE

CODE = 0x401000


class Thread:
    """A thread with its own stack and, once it has claimed it, a second one. `stacks` are pairs of an end and the
    number of entries; the first one is the current one."""

    def __init__(self, number, end):
        self.number, self.lines, self.stacks, self.inner = number, [], [[end, []]], False

    def pointer(self):
        return self.stacks[0][0] - 8 * len(self.stacks[0][1])

    def add(self, name, code, a, b):
        rip = CODE + 16 * (len(self.lines) % 64)
        self.lines.append(f"{self.number} {name} {rip:016x} {code} {a:016x} {b:016x}")


class Made:
    """`threads` threads, with about `records` records each."""

    def __init__(self, threads, records, seed=0, deepest=40):
        self.random, self.deepest, self.next = random.Random(seed), deepest, FIRST_END + PAGE
        self.regions, self.threads = [(FIRST_START, FIRST_END)], [Thread(0, FIRST_END)]
        for number in range(1, threads):
            end = self.region(8)
            self.threads[0].add("born", 0, number, end)
            self.threads.append(Thread(number, end))
        for thread in self.threads:
            while len(thread.lines) < records:
                self.act(thread)
            thread.add("sys", 0, 24, 0)

    def region(self, pages):
        start = self.next
        self.next += (pages + 1) * PAGE
        self.regions.append((start, start + pages * PAGE))
        return self.next - PAGE

    def act(self, thread):
        entries, choice = thread.stacks[0][1], self.random.random()
        if choice < 0.25 and len(entries) < self.deepest:
            entries.append("ret")
            thread.add("call", 0, CODE + 64 * self.random.randrange(8), thread.pointer())
        elif choice < 0.5 and entries and entries[-1] == "ret":
            entries.pop()
            thread.add("ret", 0, CODE + 5, thread.pointer())
        elif choice < 0.52 and entries[-2:] == ["ret", "ret"]:
            del entries[-2:]
            thread.add("raise", 0, thread.pointer(), 2)
        elif choice < 0.55:
            self.signal(thread)
        elif choice < 0.58:
            self.switch(thread)
        else:
            thread.add("step", 0, self.random.getrandbits(64), 2)

    def signal(self, thread):
        entries = thread.stacks[0][1]
        entries += ["frame", "restorer"]
        thread.add("signal", 0, 10, thread.pointer())
        entries.pop()
        thread.add("ret", 0, CODE, thread.pointer())
        entries.pop()
        thread.add("sigret", 0, CODE, thread.pointer())

    def switch(self, thread):
        """Goes to the thread's other stack, which is claimed the first time."""
        if len(thread.stacks) == 1:
            end = self.region(1)
            thread.add("claim", 0, end - PAGE, PAGE)
            thread.stacks.append([end, []])
        before = thread.pointer()
        thread.stacks.reverse()
        thread.add("take", 0, thread.pointer() - 8, before)
        thread.add("save", 0, before - 8, thread.pointer())

    def text(self):
        lines = ["cetvm report 1"]
        for thread in self.threads:
            lines.append(f"thread {thread.number} records {len(thread.lines)} limit")
            lines += thread.lines
        held = {thread.stacks[0][0]: thread for thread in self.threads}
        parked = {stack[0]: stack for thread in self.threads for stack in thread.stacks[1:]}
        for start, end in sorted(self.regions):
            holder = f"current {held[end].number}" if end in held else "parked"
            lines.append(f"region {start:016x} {end:016x} {holder}")
            entries = held[end].stacks[0][1] if end in held else parked[end][1]
            lines += [f"  ret {CODE:016x}" for _ in entries]
        return "\n".join([*lines, "process limit 0"]) + "\n"
