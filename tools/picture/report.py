"""A report, read line by line as docs/report.md has it. What stands otherwise is `Faulty`, with the line's number."""
import re
from collections import namedtuple

HEAD = "cetvm report 1"
KINDS = ("step", "call", "ret", "raise", "take", "save", "busy", "sys", "claim", "born", "wrote", "signal", "ignore",
         "sigret", "#UD", "#GP", "#AC", "#PF", "#CP", "kill")
FAULTS = ("#UD", "#GP", "#AC", "#PF", "#CP")
THREADS = 32
PAGE = 4096
FIRST_START, FIRST_END = 0x200001000, 0x200009000

DECIMAL = re.compile(r"0|[1-9][0-9]{0,9}")
DIGITS = re.compile(r"[0-9a-f]{16}")
RECORD = re.compile(rf"({DECIMAL.pattern}) ({'|'.join(KINDS)}) ({DIGITS.pattern}) ({DECIMAL.pattern}) "
                    rf"({DIGITS.pattern}) ({DIGITS.pattern})")
THREAD = re.compile(rf"thread ({DECIMAL.pattern}) records ({DECIMAL.pattern}) (exit (?:{DECIMAL.pattern})|group|limit)")
REGION = re.compile(rf"region ({DIGITS.pattern}) ({DIGITS.pattern}) "
                    rf"(current (?:{DECIMAL.pattern})|parked|left|lost)")
ENTRY = re.compile(rf"  (?:blank|(?:frame|ret|prev) ({DIGITS.pattern}))")
PROCESS = re.compile(rf"process (?:exit|killed|limit) ({DECIMAL.pattern})")

Record = namedtuple("Record", "line thread number name rip code a b text")
Region = namedtuple("Region", "line start end holder entries")
Thread = namedtuple("Thread", "line number end records")
Report = namedtuple("Report", "threads regions process")


class Faulty(Exception):
    """What is wrong with the input, with the number of its line."""

    def __init__(self, line, text):
        super().__init__(f"line {line}: {text}")


def shown(text):
    """A text as a message shows it."""
    return repr(text if len(text) <= 60 else text[:60] + "..")


def lines_of(data):
    """The lines of the bytes, each of which ends with a newline."""
    if not data:
        raise Faulty(1, "the file is empty")
    try:
        text = data.decode("ascii")
    except UnicodeDecodeError as error:
        line = data.count(b"\n", 0, error.start) + 1
        raise Faulty(line, "this is no report: it has a byte that isn't ASCII") from None
    lines = text.split("\n")
    if lines[0] != HEAD:
        raise Faulty(1, f"this is no report: its first line is {shown(lines[0])} and not '{HEAD}'")
    if lines.pop():
        raise Faulty(len(lines) + 1, "the report is cut short: its last line has no newline")
    return lines


class Reader:
    """The lines, and the place of the next one."""

    def __init__(self, data):
        self.lines, self.place = lines_of(data), 1

    def next(self, wanted):
        if self.place == len(self.lines):
            raise Faulty(len(self.lines) + 1, f"the report is cut short: it ends here, before {wanted}")
        return self.lines[self.place]

    def fail(self, text):
        raise Faulty(self.place + 1, text)

    def threads(self):
        found = []
        while self.next("the line of its process").startswith("thread "):
            found.append(self.thread(len(found)))
        if not found:
            self.fail(f"the line of thread 0 is wanted here, and not {shown(self.lines[self.place])}")
        return found

    def thread(self, number):
        line, match = self.place + 1, THREAD.fullmatch(self.lines[self.place])
        if not match:
            self.fail(f"a thread's line is 'thread T records N END', and not {shown(self.lines[self.place])}")
        if number == THREADS:
            self.fail(f"there are no more than {THREADS} threads")
        if int(match[1]) != number:
            self.fail(f"this is thread {match[1]}, and thread {number} comes next")
        self.place += 1
        count = int(match[2])
        records = [self.record(number, place, count) for place in range(1, count + 1)]
        return Thread(line, number, match[3], records)

    def record(self, thread, number, count):
        text = self.next(f"record {number} of {count} of thread {thread}")
        match = RECORD.fullmatch(text)
        if not match:
            self.fail(what_record(text, thread, number, count))
        if int(match[1]) != thread:
            self.fail(f"a record of thread {match[1]} stands among those of thread {thread}")
        self.place += 1
        return Record(self.place, thread, number, match[2], int(match[3], 16), int(match[4]), int(match[5], 16),
                      int(match[6], 16), text)

    def regions(self):
        found = []
        while (text := self.next("the line of its process")).startswith("region "):
            match = REGION.fullmatch(text)
            if not match:
                self.fail(f"a stack's line is 'region START END HOLDER', and not {shown(text)}")
            start, end = int(match[1], 16), int(match[2], 16)
            if start >= end or start % PAGE or end % PAGE or found and start < found[-1].end:
                self.fail("the stacks are whole pages, in the order of their starts")
            self.place += 1
            found.append(Region(self.place, start, end, match[3], self.entries(end - start)))
        if not found or (found[0].start, found[0].end) != (FIRST_START, FIRST_END):
            self.fail(f"the first stack is {FIRST_START:016x} {FIRST_END:016x}")
        return found

    def entries(self, size):
        found = []
        while (text := self.next("the line of its process")).startswith(" "):
            if not ENTRY.fullmatch(text):
                self.fail("an entry is '  blank', or '  frame', '  ret' or '  prev' with a value, "
                          f"and not {shown(text)}")
            if len(found) == size // 8:
                self.fail(f"the stack has room for {len(found)} entries")
            self.place += 1
            found.append(text)
        return found

    def process(self):
        text = self.next("the line of its process")
        if not PROCESS.fullmatch(text):
            self.fail(f"a thread, a stack or the process comes here, and not {shown(text)}")
        self.place += 1
        if self.place < len(self.lines):
            self.fail("there is more behind the line of the process")
        return text


def what_record(text, thread, number, count):
    """Why a line is no record."""
    words = text.split(" ")
    if words[0] in ("thread", "region", "process"):
        if number == 2:
            return f"thread {thread} has 1 record of {count}: a picture needs all, as `--trace full` gives them"
        return f"thread {thread} has {number - 1} records, and its line says {count}"
    if len(words) != 6:
        return f"a record has 6 words, and {shown(text)} has {len(words)}"
    if words[1] not in KINDS:
        return f"there is no record {shown(words[1])}"
    return f"a record is 'T NAME RIP CODE A B', with 16 digits for RIP, A and B, and not {shown(text)}"


def read_report(data):
    """The report that the bytes are."""
    reader = Reader(data)
    threads = reader.threads()
    regions = reader.regions()
    return Report(threads, regions, reader.process())
