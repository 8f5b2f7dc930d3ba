#!/usr/bin/env python3
"""Checks picture.py: the pictures of all reports of examples/ and its cases, of long reports and of ones with 32
threads, what is answered to faulty input, and that docs/pictures/ has the pictures of the examples and of the guide.
The first argument may name another program than the one that `rt ci` has left, which draws those of the guide; nothing
else needs one. It ends with status 1 where something is wrong."""
import json
import random
import re
import subprocess
import sys
import xml.etree.ElementTree as tree
from collections import Counter
from pathlib import Path

sys.dont_write_bytecode = True

from made import Made
from picture import picture
from pictures import BUILT, stale
from report import Faulty, read_report
from story import Story
from symbols import read_symbols
from trace import HOLDERS, RECORDS, STACKS
from window import MOST, USUAL, Wrong

HERE = Path(__file__).resolve().parent
EXAMPLES = HERE.parents[1] / "examples"
LEAST_REPORTS, LONG, MOST_BYTES = 100, 99990, 1 << 20
SVG = "{http://www.w3.org/2000/svg}"
START = "cetvm report 1\nthread 0 records 1 group\n"
KILL = "0 kill 0000000000401000 0 000000000000000a 0000000000000000\n"
END = "region 0000000200001000 0000000200009000 current 0\nprocess killed 10\n"
FAULTY = {
    "empty": (b"", "line 1: the file is empty"),
    "no report": (b"\x7fELF\x02\x01\x01\x00\xff", "line 1: this is no report"),
    "another text": (b"hello\nworld\n", "line 1: this is no report"),
    "a later version": (b"cetvm report 2\n", "line 1: this is no report"),
    "line ends of two bytes": ((START + KILL + END).replace("\n", "\r\n").encode(), "line 1: this is no report"),
    "a byte that isn't ASCII": ((START + KILL).encode() + b"\xe9\n", "line 4: this is no report"),
    "the head alone": (b"cetvm report 1\n", "line 2: the report is cut short"),
    "no thread": (("cetvm report 1\n" + END).encode(), "line 2: the line of thread 0 is wanted"),
    "a record is missing": ((START.replace("1 group", "2 group") + KILL + END).encode(),
                            "line 4: thread 0 has 1 record of 2: a picture needs all"),
    "two records are missing": ((START.replace("1 group", "4 group") + KILL + KILL + END).encode(),
                                "line 5: thread 0 has 2 records, and its line says 4"),
    "a record too many": ((START + KILL + KILL + END).encode(), "line 4: "),
    "a kind that isn't there": ((START + KILL.replace("kill", "fill") + END).encode(), "line 3: there is no record"),
    "five words": ((START + KILL.replace(" 0 ", " ") + END).encode(), "line 3: a record has 6 words"),
    "capital digits": ((START + KILL.replace("a", "A") + END).encode(), "line 3: a record is"),
    "another thread": ((START + KILL.replace("0", "1", 1) + END).encode(), "line 3: a record of thread 1 stands"),
    "no process": ((START + KILL + END.splitlines(True)[0]).encode(), "line 5: the report is cut short"),
    "no last newline": ((START + KILL + END).encode()[:-1], "line 5: the report is cut short"),
    "more behind the end": ((START + KILL + END + KILL).encode(), "line 6: there is more behind"),
    "a call to no stack": ((START + KILL.replace("kill", "call") + END).encode(), "line 3: no stack of this report"),
    "no first stack": ((START + KILL + END.replace("200001", "20000a")).encode(), "line 4: the stacks are whole pages"),
    "a return to another stack": ((START + KILL.replace("kill", "ret").replace("0" * 16, "000000020000b000")
                                   + END.replace("process", "region 000000020000a000 000000020000b000 lost\nprocess")
                                   ).encode(), "line 3: SSP 20000b000 is on another stack"),
}


class Totals:
    def __init__(self):
        self.wrong, self.reports, self.faulty = [], 0, 0

    def require(self, holds, text):
        if not holds:
            self.wrong.append(text)


def reports():
    """The names and bytes of the reports that are stated in examples/, but for those of the last records alone."""
    for path in sorted(EXAMPLES.glob("*.report")):
        if path not in last_records():
            yield path.name, path.read_bytes()
    for path in sorted((EXAMPLES / "cases").glob("*.case")):
        output = path.read_text().partition("output:\n")[2]
        if output.startswith("cetvm report 1\n"):
            yield path.name, output.encode()


def last_records():
    return [path.with_suffix(".report") for path in EXAMPLES.glob("*.words") if "--trace last" in path.read_text()]


def pushes(data):
    """How many entries the records of a report push, by their words alone: a restore one, a signal two, a call one
    where SSP is another one after it than before."""
    pointers, count, ssp_at = {"0": 0x200009000}, 0, {"take": 4, "raise": 4}
    for line in data.decode().splitlines():
        words = line.split(" ")
        if len(words) == 6 and words[1] == "born":
            pointers[str(int(words[4], 16))] = int(words[5], 16)
        if len(words) == 6 and words[1] in ("call", "ret", "raise", "take", "save", "signal", "sigret"):
            pointer = int(words[ssp_at.get(words[1], 5)], 16)
            if words[1] == "signal":
                count += 2
            elif words[1] == "take" or words[1] == "call" and pointer != pointers[words[0]]:
                count += 1
            pointers[words[0]] = pointer
    return count


def kinds(data):
    return Counter(line.split(" ")[1] for line in data.decode().splitlines() if line[0].isdigit())


def check_end(totals, name, data):
    """The holders and entries that the records lead to are those that the report shows."""
    report = read_report(data)
    story = Story(report)
    totals.require(story.order.whole, f"{name}: no order of the restores was found")
    for stack, region in zip(story.stacks, report.regions):
        same = stack.holder == region.holder or (stack.holder, region.holder) == ("left", "lost")
        totals.require(same, f"{name}: {stack.start:x} is {region.holder}, and the story has {stack.holder}")
        told = ["ret" if bar.kind in ("call", "restorer") else bar.kind for bar, _ in reversed(stack.open)]
        shown = [entry.split()[0] for entry in region.entries if entry != "  blank"]
        totals.require(told == shown or region.holder == "lost", f"{name}: {stack.start:x} has other entries")
    for record, cause in ((record, story.order.causes.get(record.line)) for record in story.order.records):
        totals.require(cause is None or story.order.place(cause) < story.order.place(record),
                       f"{name}: line {record.line} stands before what it needs")


def check_svg(totals, name, data, text, whole=True):
    """Well-formed, all inside the picture, and, where it has all of the report, a part for each that should have
    one."""
    root = tree.fromstring(text)
    width, height = float(root.get("width")), float(root.get("height"))
    counts = Counter(part.get("class") for part in root.iter())
    for part in root.iter(SVG + "rect"):
        if part.get("class"):
            x, y = float(part.get("x")), float(part.get("y"))
            inside = 0 <= x and x + float(part.get("width")) <= width and 0 <= y <= height
            totals.require(inside, f"{name}: a part of the picture is outside of it")
    for part in root.iter(SVG + "text"):
        if part.get("text-anchor") == "start":
            right = float(part.get("x")) + 6.1 * float(part.get("font-size")) / 10 * len(part.text)
            totals.require(right <= width, f"{name}: the text {part.text!r} is cut off")
    if whole:
        found = kinds(data)
        totals.require(counts["record"] == sum(found.values()), f"{name}: {counts['record']} cells")
        totals.require(counts["bar"] == pushes(data), f"{name}: {counts['bar']} bars, and not {pushes(data)}")
        arrows = found["take"] + found["save"] + found["born"]
        totals.require(arrows <= counts["arrow"] <= arrows + found["#CP"], f"{name}: {counts['arrow']} arrows")


def check_json(totals, name, data, text):
    events = json.loads(text)["traceEvents"]
    spans = [event for event in events if event["ph"] == "X"]
    counts = Counter(event["pid"] for event in spans)
    totals.require(counts[RECORDS] == sum(kinds(data).values()), f"{name}: {counts[RECORDS]} records in the JSON")
    totals.require(counts[STACKS] == pushes(data), f"{name}: {counts[STACKS]} entries in the JSON")
    tracks = {}
    for event in spans:
        tracks.setdefault((event["pid"], event["tid"]), []).append((event["ts"], event["ts"] + event["dur"]))
    for track, times in tracks.items():
        totals.require(nested(sorted(times, key=lambda time: (time[0], -time[1]))), f"{name}: {track} isn't nested")
    ends = Counter(event["ph"] for event in events if event["ph"] in "sf")
    totals.require(ends["s"] == ends["f"], f"{name}: an arrow has one end in the JSON")
    for event in events:
        if event["ph"] in "sf" and event["pid"] == HOLDERS:
            times = tracks.get((HOLDERS, event["tid"]), [])
            totals.require(any(start <= event["ts"] <= end for start, end in times), f"{name}: an arrow in the air")


def nested(times):
    ends = []
    for start, end in times:
        while ends and ends[-1] <= start:
            ends.pop()
        if ends and end > ends[-1] or end <= start:
            return False
        ends.append(end)
    return True


def check_reports(totals):
    for name, data in reports():
        totals.reports += 1
        check_end(totals, name, data)
        check_svg(totals, name, data, picture(["svg", "--from", "1", "--to", str(MOST)], data))
        check_json(totals, name, data, picture(["json"], data))
    totals.require(totals.reports >= LEAST_REPORTS, f"only {totals.reports} reports")


def check_pictures(totals):
    """The pictures of the documents, each of which is in one of them."""
    for line in stale(sys.argv[1] if len(sys.argv) > 1 else BUILT):
        totals.require(False, line)


def check_long(totals):
    """A report of one thread with 100,000 records, and one of 32 threads."""
    long = Made(1, LONG).text().encode()
    text = picture(["svg"], long)
    totals.require(len(text) < MOST_BYTES, f"the picture of a long report has {len(text)} bytes")
    last = sum(kinds(long).values())
    totals.require(f"left out: 1 to {last - USUAL} " in text, "the picture doesn't say what it left out")
    check_svg(totals, "a long report", long, text, whole=False)
    check_end(totals, "a long report", long)
    part = picture(["svg", "--from", "1000", "--to=1499"], long)
    totals.require(f"places 1000 to 1499 of {last}; left out: 1 to 999 and 1500 to {last}" in part, "a part of it")
    totals.require(part.count('class="record"') == 500, "500 places have another number of cells")
    many = Made(32, 120, 1).text().encode()
    check_end(totals, "32 threads", many)
    check_svg(totals, "32 threads", many, picture(["svg", "--from", "1", "--to", "4000"], many))
    check_json(totals, "32 threads", many, picture(["json"], many))


def answer(words, data):
    """What is answered to input: the line, or "drawn"."""
    try:
        picture(words, data)
        return "drawn"
    except (Faulty, Wrong) as error:
        return str(error)


def check_faulty(totals):
    for name, (data, wanted) in FAULTY.items():
        found = answer(["svg"], data)
        totals.require(found.startswith(wanted), f"{name}: {found!r}, and not {wanted!r}")
        totals.faulty += 1
    totals.require(answer(["svg"], (START + KILL + END).encode()) == "drawn", "the sound report is refused")
    for path in last_records():
        found = answer(["svg"], path.read_bytes())
        totals.require("a picture needs all" in found, f"{path.name} has the last records alone: {found!r}")
    many = Made(33, 5).text().encode()
    place = many.index(b"thread 32 ")
    wanted = f"line {many.count(bytes([10]), 0, place) + 1}: there are no more than 32"
    found = answer(["svg"], many)
    totals.require(found.startswith(wanted), f"33 threads: {found!r}, and not {wanted!r}")
    for data in sorted((data for _, data in reports()), key=len)[:12]:
        for length in range(len(data)):
            found = answer(["json"], data[:length])
            totals.require(re.match(r"line \d+: ", found), f"cut at {length}: {found!r}")
            totals.faulty += 1


def check_changed(totals):
    """Words of reports that are changed at random: a picture, or the number of a line, and never another error."""
    chance = random.Random(28)
    sound = [data.decode() for _, data in reports()]
    for _ in range(1500):
        lines = chance.choice(sound).splitlines(True)
        place = chance.randrange(len(lines))
        words = lines[place].rstrip("\n").split(" ")
        other = chance.choice(chance.choice(lines).rstrip("\n").split(" "))
        new = chance.choice([other, "", "x", "0", "31", "f" * 16, "18446744073709551616"])
        words[chance.randrange(len(words))] = new
        lines[place] = " ".join(words) + "\n"
        if chance.random() < 0.3:
            del lines[chance.randrange(len(lines))]
        found = answer([chance.choice(["svg", "json"])], "".join(lines).encode())
        totals.require(found == "drawn" or re.match(r"line \d+: ", found), f"a changed report: {found!r}")
        totals.faulty += 1


def check_symbols(totals):
    text = b"                 U other\n0000000000401000 T _start\n0000000000401010 0000000000000020 t inner\n"
    symbols = read_symbols(text + b"0000000000404000 D data\n")
    for address, name in ((0x401000, "_start"), (0x401010, "inner"), (0x401014, "inner+0x4"), (0x400fff, "400fff"),
                          (0x900000, "900000")):
        totals.require(symbols.name(address) == name, f"{address:x} is {symbols.name(address)}, and not {name}")
    for data, wanted in ((b"", "line 1: "), (text + b"401000 T _start\n", "line 4: "),
                         (b"nm: no symbols\n", "line 1: ")):
        try:
            read_symbols(data)
            totals.require(False, f"symbols are taken: {data!r}")
        except Faulty as error:
            totals.require(str(error).startswith(wanted), f"symbols: {error}")


def check_program(totals):
    """The program itself: its status, its line, and nothing else."""
    sound = (START + KILL + END).encode()
    for words, data, status in ((["svg"], sound, 0), (["json"], sound, 0), (["svg"], b"", 1), (["json"], sound[:40], 1),
                                (["svg"], b"\xff\x00", 1), ([], sound, 1), (["png"], sound, 1),
                                (["svg", "--from", "0"], sound, 1), (["svg", "--from", "2"], sound, 1),
                                (["svg", "--from", "x"], sound, 1), (["svg", "--to"], sound, 1),
                                (["json", "--from=3"], sound, 1), (["svg", "--symbols", "/nowhere"], sound, 1),
                                (["svg", "--symbols", str(HERE)], sound, 1),
                                (["svg", "--to", "1", "--to", "1"], sound, 1)):
        run = subprocess.run([sys.executable, HERE / "picture.py", *words], input=data, capture_output=True)
        lines = run.stderr.decode().splitlines()
        told = run.returncode == status and len(lines) == status and bool(run.stdout) == (status == 0)
        totals.require(told and "Traceback" not in run.stderr.decode(), f"{words}: {run.returncode} {lines}")


def main():
    totals = Totals()
    for check in (check_reports, check_pictures, check_long, check_faulty, check_changed, check_symbols, check_program):
        check(totals)
    for line in totals.wrong[:20]:
        print(f"picture: {line}")
    print(f"picture: {totals.reports} reports drawn, {totals.faulty} faulty inputs; "
          f"{len(totals.wrong)} things are wrong")
    return 1 if totals.wrong else 0


if __name__ == "__main__":
    sys.exit(main())
