"""The words and page entries, and a run: one access of one thread a turn."""
from book import Book
from places import (DATA_PAGE, DRAW_SHADOW, EXECUTABLE_PAGE, FIRST_REGION, KERNEL, KERNEL_PAGE, MASK, NEXT_THREAD,
                    NO_EXECUTE, PAGE, REGION_PAGES, SHADOW_PAGE, STACK, STACK_END, SUPERVISOR_PAGE, EXIT_WORD, entry_of,
                    page_of, token_place)
from threads import Thread

STACKS = 8


class Memory:
    def __init__(self, program):
        self.words = dict(program.words())
        self.words |= {token_place(stack): token_place(stack) for stack in range(STACKS)}
        self.words |= {NEXT_THREAD: 1, DRAW_SHADOW: REGION_PAGES + 1}
        self.entries = {}
        for address, segment in program.pages():
            plain = EXECUTABLE_PAGE if segment.executable else EXECUTABLE_PAGE | NO_EXECUTE
            self.enter(address, 1, DATA_PAGE if segment.writable else plain)
        self.enter(STACK, (STACK_END - STACK) // PAGE, DATA_PAGE)
        self.enter(FIRST_REGION, REGION_PAGES, SHADOW_PAGE)
        self.enter(KERNEL, 1, KERNEL_PAGE)
        for stack in range(STACKS):
            self.enter(KERNEL + PAGE * (2 * stack + 2), 1, SUPERVISOR_PAGE)

    def enter(self, start, pages, rights):
        for page in range(page_of(start), page_of(start) + pages):
            self.entries[page] = entry_of(page, rights)

    def perform(self, kind, place, *values):
        """One access; answers the word as it was before."""
        if kind in ("look", "enter"):
            before = self.entries.get(place, 0)
            if kind == "enter":
                self.entries[place] = values[0]
            return before
        if place % 8 or page_of(place) is None:
            raise AssertionError(f"{kind} at {place:x}")
        before = self.words.get(place, 0)
        if kind in ("store", "swap"):
            self.words[place] = values[0]
        elif kind == "add":
            self.words[place] = before + values[0] & MASK
        elif kind == "or":
            self.words[place] = before | values[0]
        elif kind == "and":
            self.words[place] = before & values[0]
        elif kind == "exchange" and before == values[0]:
            self.words[place] = values[1]
        return before


class Run:
    def __init__(self, program, settings):
        self.program, self.settings = program, settings
        self.memory, self.book = Memory(program), Book()
        self.threads, self.lives, self.next, self.turns = [], [], [], 0
        self.add(Thread(self, 0))

    def add(self, thread):
        self.threads.append(thread)
        life = thread.life()
        self.lives.append(life)
        self.next.append(next(life))

    def live(self):
        return [thread.number for thread in self.threads if thread.end is None]

    def turn(self, number):
        """One access of a thread. A thread that isn't born or has ended does nothing."""
        if number >= len(self.threads) or self.threads[number].end is not None:
            return
        self.turns += 1
        answer = self.memory.perform(*self.next[number])
        try:
            self.next[number] = self.lives[number].send(answer)
        except StopIteration:
            assert self.threads[number].end is not None

    def exit_word(self):
        return self.memory.words.get(EXIT_WORD, 0)

    def process(self):
        """How the process ended, as the report says it."""
        word = self.exit_word()
        if word >= 0x200:
            return f"killed {word - 0x200}"
        if word:
            return f"exit {word - 0x100}"
        for thread in self.threads:
            if thread.end == "limit":
                return f"limit {thread.number}"
        return self.threads[0].end

    def report(self):
        lines = ["cetvm report 1"]
        for thread in self.threads:
            lines.append(f"thread {thread.number} records {len(thread.records)} {thread.end}")
            shown = thread.records[-1:] if self.settings.trace == "last" else thread.records
            lines += [f"{thread.number} {name} {rip:016x} {code} {a:016x} {b:016x}" for rip, name, code, a, b in shown]
        return "\n".join([*lines, *self.book.lines(), f"process {self.process()}"]) + "\n"
