"""The timeline as SVG: a lane for each thread, with a cell for each record, and one for each shadow stack, with a band
that shows who holds it and a bar for each entry."""
from xml.sax.saxutils import escape, quoteattr

from report import FAULTS
from window import bar_name, group, label, left_out, where

LEFT, RIGHT, WIDTH, LEAST_WIDTH = 168, 96, 1000, 720
CELL_MOST, CELL_LEAST = 58, 2.5
LETTER, SIZE = 6.3, 10
NOTE_TOP, NOTE_LINE, AXIS = 32, 14, 24
THREAD_LANE, CALLOUT, CELL = 48, 14, 20
BAND, BAR, BAR_ROOM = 9, 16, 240
GAP = 12
MOST_STACKS = 64

FILLS = {"step": "#d9dde3", "call": "#8bb8e8", "ret": "#bcd6f2", "raise": "#8fd3c9", "take": "#2f9e8f",
         "save": "#7cc9ae", "busy": "#f2e35c", "service": "#c3b1e1", "delivery": "#f6b94a", "fault": "#c9252d",
         "kill": "#5a1015"}
LIGHT_TEXT = ("fault", "kill", "take")
BARS = {"call": ("#dceafa", "#6f9fd4"), "frame": ("#fde4b3", "#d9952b"), "restorer": ("#fdf1d6", "#d9952b"),
        "prev": ("#cfeee3", "#2f9e8f")}
THREADS = ("#3f6fb5", "#c77a1b", "#6b4fa3", "#3d8b57", "#a8557f", "#7a6a50", "#4a8fa3", "#8a8f2c")
ARROWS = {"take": ("#17766a", ""), "save": ("#17766a", "4 3"), "born": ("#6b4fa3", "2 3"), "missed": ("#c9252d", "4 3")}
LEGEND = (("step", "step"), ("call", "call"), ("ret", "ret"), ("raise", "raise"), ("take", "take"), ("save", "save"),
          ("service", "kernel call"), ("delivery", "signal, sigret"), ("busy", "busy"), ("fault", "fault"),
          ("kill", "kill"))
ARROW_LEGEND = (("take", "take: goes to a stack"), ("save", "save: leaves a token there"), ("missed", "finds no token"),
                ("born", "starts a thread"))
HOLDER_LEGEND = (("current 0", "held by a thread, in its colour"), ("parked", "parked, with a token"), ("left", "left"),
                 ("lost", "lost"))
NOTE = "a place of the axis is a record"
NOTES = NOTE + "; of the order of two threads only births and tokens are told"


def fitted(text, width):
    """As much of a text as fits, with two dots where some is missing; nothing where that is no help."""
    room = int((width - 4) / LETTER)
    if len(text) <= room:
        return text
    if text.startswith("prev "):
        return "prev" if room >= 4 else ""
    return text[:room - 2] + ".." if room >= 6 else ""


def band_style(holder):
    """The colour of a band, and whether its edge is dashed."""
    if holder.startswith("current"):
        return THREADS[int(holder.split()[1]) % len(THREADS)], ""
    dashes = ' stroke-dasharray="2 2"' if holder in ("left", "lost") else ""
    return "#ffffff" if holder == "lost" else "#e3e6ea", dashes


def clean(text):
    """A text without what XML can't have."""
    return "".join(letter if letter >= " " or letter == "\n" else "?" for letter in text)


class Drawing:
    """The parts of a picture, and how places and lanes are laid out."""

    def __init__(self, story, window, symbols):
        self.story, self.window, self.symbols, self.parts, self.texts = story, window, symbols, [], []
        count = window.last - window.first + 1
        self.cell = max(CELL_LEAST, min(CELL_MOST, WIDTH / count))
        self.right = LEFT + self.cell * count
        self.width = max(LEAST_WIDTH, self.right + RIGHT)
        self.bars = [bar for bar in story.bars if bar.end >= window.first and bar.start <= window.last]
        self.holds = [hold for hold in story.holds if hold.end >= window.first and hold.start <= window.last]
        self.threads = [thread for thread in story.report.threads if self.in_view(thread)]
        self.stacks, self.hidden = self.shown_stacks()
        self.notes = self.told()
        self.top = NOTE_TOP + NOTE_LINE * (len(self.notes) - 1) + 10
        self.lay_out()

    def in_view(self, thread):
        places = self.story.order.places[thread.number]
        return not places or places[0] <= self.window.last

    def shown_stacks(self):
        """The stacks that are there in the window, and how many are left out. Where there are too many, those go that
        have no entry and no change."""
        there = sorted({hold.stack for hold in self.holds})
        if len(there) <= MOST_STACKS:
            return there, 0
        busy = {bar.stack for bar in self.bars}
        busy |= {hold.stack for hold in self.holds if hold.holder.startswith("current")}
        kept = [stack for stack in there if stack in busy]
        return kept[:MOST_STACKS], len(there) - len(kept[:MOST_STACKS])

    def lay_out(self):
        """The top of each lane, and the height of the bars. A thread's lane has those of the stacks that it made below
        it. Entries that stand throughout have no bar."""
        self.tops, self.base, self.levels = {}, {}, {}
        y = self.top + AXIS
        for thread in self.threads:
            self.tops["thread", thread.number] = y
            y += THREAD_LANE
            for stack in self.stacks:
                if self.story.stacks[stack].maker == thread.number:
                    self.tops["stack", stack] = y
                    y += self.measure(stack) + GAP
            y += GAP
        self.bottom = y

    def measure(self, stack):
        """The height of a stack's lane."""
        bars = [bar for bar in self.bars if bar.stack == stack]
        self.base[stack] = sum(bar.start < self.window.first and bar.end > self.window.last for bar in bars)
        self.levels[stack] = max((bar.depth for bar in bars), default=-1) - self.base[stack] + 1
        return BAND + max(18, self.levels[stack] * self.bar_height(stack)) + 4

    def bar_height(self, stack):
        return max(2, min(BAR, BAR_ROOM / max(1, self.levels[stack])))

    def x(self, place):
        return LEFT + self.cell * (min(max(place, self.window.first), self.window.last + 1) - self.window.first)

    def middle(self, place):
        """Where a place's change is drawn. What began before the window begins at its edge."""
        if place < self.window.first:
            return self.x(self.window.first)
        return self.x(place) + (self.cell / 2 if place <= self.window.last else 0)

    def rect(self, x, y, width, height, fill, stroke=None, hover=None, extra=""):
        edge = f' stroke="{stroke}"' if stroke else ""
        text = f"<title>{escape(clean(hover))}</title>" if hover else ""
        self.parts.append(f'<rect x="{x:.1f}" y="{y:.1f}" width="{max(width, 0.5):.1f}" height="{height:.1f}" '
                          f'fill="{fill}"{edge}{extra}>{text}</rect>')

    def text(self, x, y, text, anchor="start", fill="#1b1f24", size=SIZE, bold=False, halo=None):
        """A text, which stands above all lines. `halo` hides these behind its letters."""
        if not text:
            return
        extra = ' font-weight="bold"' if bold else ""
        extra += f' paint-order="stroke" stroke="{halo}" stroke-width="3"' if halo else ""
        self.texts.append(f'<text x="{x:.1f}" y="{y:.1f}" text-anchor="{anchor}" fill="{fill}" font-size="{size}"'
                          f'{extra}>{escape(clean(text))}</text>')

    def line(self, x, y, x2, y2, stroke, extra=""):
        self.parts.append(f'<line x1="{x:.1f}" y1="{y:.1f}" x2="{x2:.1f}" y2="{y2:.1f}" stroke="{stroke}"{extra}/>')

    def axis(self):
        count = self.window.last - self.window.first + 1
        step = next(step for step in (1, 2, 5, 10, 20, 50, 100, 200, 500, 1000) if step * self.cell >= 30
                    or step * 20 > count)
        for place in range(self.window.first, self.window.last + 1):
            if place % step == 0 or place == self.window.first == self.window.last:
                x = self.x(place) + self.cell / 2
                self.text(x, self.top + 10, str(place), "middle", "#5b6470", 9)
                self.line(x, self.top + 14, x, self.bottom - GAP, "#eceff3")
        for thread in self.threads[1:]:
            y = self.tops["thread", thread.number] - GAP / 2
            self.line(8, y, self.width - 8, y, "#dfe3e8")

    def thread(self, thread):
        y = self.tops["thread", thread.number]
        colour = THREADS[thread.number % len(THREADS)]
        self.text(8, y + CALLOUT + 9, f"thread {thread.number}", fill=colour, size=12, bold=True)
        self.text(8, y + CALLOUT + 22, f"{len(thread.records)} records", fill="#5b6470")
        places = self.story.order.places[thread.number]
        shown = [record for record, place in zip(thread.records, places)
                 if self.window.first <= place <= self.window.last]
        for record in shown:
            self.record(record, y)
        self.callouts(shown, y)
        if not places or places[-1] <= self.window.last:
            end = self.x(places[-1] + 1 if places else self.window.first)
            self.text(end + 5, y + CALLOUT + 14, thread.end, fill="#1b1f24", bold=True)

    def record(self, record, y):
        x, kind = self.x(self.story.order.place(record)), group(record)
        gap = 1.5 if self.cell > 8 else 0
        more = 4 if kind in ("fault", "kill") and not self.fits(record) else 0
        self.rect(x + gap / 2, y + CALLOUT - more, self.cell - gap, CELL + 2 * more, FILLS[kind],
                  hover=where(record, self.symbols), extra=' class="record"')
        if self.fits(record):
            fill = "#ffffff" if kind in LIGHT_TEXT else "#1b1f24"
            self.text(x + self.cell / 2, y + CALLOUT + 14, self.fits(record), "middle", fill)

    def fits(self, record):
        """The longest name of the record that its cell has room for; nothing where it has none."""
        names = [name for name in (label(record), record.name) if len(name) * LETTER + 4 <= self.cell]
        return names[0] if names else ""

    def callouts(self, records, y):
        """Labels above the cells that are too narrow for theirs: faults first, and others where there is room."""
        taken = []
        for wanted in (True, False):
            for record in records:
                if self.fits(record) or record.name in ("step", "call", "ret") \
                        or (record.name in FAULTS + ("kill",)) != wanted:
                    continue
                half = len(label(record)) * LETTER / 2
                x = self.x(self.story.order.place(record)) + self.cell / 2
                if all(x + half + 3 < left or right < x - half - 3 for left, right in taken):
                    taken.append((x - half, x + half))
                    self.text(x, y + CALLOUT - 5, label(record), "middle", "#c9252d" if wanted else "#1b1f24",
                              halo="#ffffff")

    def stack(self, number):
        stack, y = self.story.stacks[number], self.tops["stack", number]
        self.text(8, y + 10, f"stack {stack.start:x}", size=12, bold=True)
        deeper = self.base[number]
        note = f"older: {deeper}" if deeper else f"to {stack.end:x}"
        self.text(8, y + 23, note, fill="#5b6470")
        for hold in self.holds:
            if hold.stack == number:
                self.band(hold, y)
        for bar in self.bars:
            if bar.stack == number:
                self.bar(bar, y + BAND)
        if self.window.last == self.window.all:
            self.text(self.right + 5, y + 9, self.story.report.regions[number].holder, bold=True)

    def band(self, hold, y):
        start, end = self.middle(hold.start), self.middle(hold.end)
        if hold.start == 1:
            start = self.x(1)
        fill, dashes = band_style(hold.holder)
        self.rect(start, y, end - start, BAND, fill, "#9aa3ae", hold.holder, dashes + ' class="hold"')

    def bar(self, bar, y):
        level, height = bar.depth - self.base[bar.stack], self.bar_height(bar.stack)
        if level < 0:
            return
        start, end, top = self.middle(bar.start), self.middle(bar.end), y + 2 + level * height
        fill, edge = BARS[bar.kind]
        name = bar_name(bar, self.symbols, "{:x}".format)
        hover = f"{name}\nopened: {where(bar.opened, self.symbols)}"
        hover += f"\nclosed: {where(bar.closed, self.symbols)}" if bar.closed else "\nopen at the end"
        if height < 5:
            self.rect(start, top, end - start, height, (fill, edge)[level % 2], None, hover, ' class="bar"')
            return
        self.rect(start, top, end - start, height - 1, fill, edge, hover, ' class="bar"')
        if height >= 12:
            self.text(start + 4, top + 11, fitted(name, end - start - 2), halo=fill)

    def anchor(self, end):
        """Where an arrow meets a lane; nothing where the lane isn't shown."""
        top = self.tops.get(end)
        if top is None:
            return None
        return (top + CALLOUT, top + CALLOUT + CELL) if end[0] == "thread" else (top, top + BAND)

    def arrow(self, arrow):
        source, target = self.anchor(arrow.source), self.anchor(arrow.target)
        if source is None or target is None or not self.window.first <= arrow.place <= self.window.last:
            return
        x = self.x(arrow.place) + self.cell / 2
        if arrow.kind == "born":
            self.birth(arrow, x, source[1], (target[0] + target[1]) / 2)
        elif arrow.source == arrow.target:
            self.path(arrow, f"M{x:.1f},{source[0]:.1f} V{source[1]:.1f}")
        elif source[0] < target[0]:
            self.path(arrow, f"M{x:.1f},{source[1]:.1f} V{target[0] - 1:.1f}")
        else:
            self.path(arrow, f"M{x:.1f},{source[0]:.1f} V{target[1] + 1:.1f}")

    def birth(self, arrow, x, y, lane):
        """Down to the child's lane, and along it to the child's first record."""
        places = self.story.order.places[arrow.target[1]]
        first = self.x(places[0]) if places else x + self.cell / 2
        self.path(arrow, f"M{x:.1f},{y:.1f} V{lane:.1f} H{max(x + 1, first - 1):.1f}")

    def path(self, arrow, shape):
        colour, dashes = ARROWS[arrow.kind]
        dashed = f' stroke-dasharray="{dashes}"' if dashes else ""
        self.parts.append(f'<path d="{shape}" fill="none" stroke="{colour}" stroke-width="1.4"{dashed} '
                          f'marker-end="url(#{arrow.kind})" class="arrow"><title>'
                          f"{escape(clean(where(arrow.record, self.symbols)))}</title></path>")

    def heads(self):
        for kind, (colour, _) in ARROWS.items():
            shape = "M0,0 L7,3.5 L0,7 z" if kind != "missed" else "M0,0 L7,7 M0,7 L7,0"
            style = f'fill="{colour}"' if kind != "missed" else f'fill="none" stroke="{colour}" stroke-width="1.6"'
            place = 6 if kind != "missed" else 3.5
            self.parts.append(f'<marker id="{kind}" viewBox="-1 -1 9 9" refX="{place}" refY="3.5" markerWidth="8" '
                              f'markerHeight="8" markerUnits="userSpaceOnUse" orient="auto"><path d="{shape}" {style}/>'
                              "</marker>")

    def legend(self):
        """What the colours, arrows and bands are, in rows."""
        y = self.legend_row(self.bottom + 4, LEGEND, 15, lambda x, y, kind: self.rect(x, y, 11, 11, FILLS[kind]))
        y = self.legend_row(y, ARROW_LEGEND, 26, self.legend_arrow)
        self.height = self.legend_row(y, HOLDER_LEGEND, 26, self.legend_holder) + 4

    def legend_row(self, y, items, space, draw_sign):
        x = 8
        for kind, name in items:
            width = space + len(name) * LETTER + 14
            if x + width > self.width:
                x, y = 8, y + 18
            draw_sign(x, y, kind)
            self.text(x + space, y + 10, name, fill="#3a424d")
            x += width
        return y + 20

    def legend_arrow(self, x, y, kind):
        colour, dashes = ARROWS[kind]
        dashed = f' stroke-dasharray="{dashes}"' if dashes else ""
        self.line(x, y + 6, x + 20, y + 6, colour, f' stroke-width="1.4"{dashed} marker-end="url(#{kind})"')

    def legend_holder(self, x, y, holder):
        fill, dashes = band_style(holder)
        self.rect(x, y + 2, 20, 8, fill, "#9aa3ae", extra=dashes)

    def told(self):
        """The lines below the title."""
        lines = [left_out(self.window)] if left_out(self.window) else []
        if self.hidden:
            lines.append(f"left out: {self.hidden} stacks without an entry here")
        if not self.story.order.whole:
            lines.append("no order of the records was found in which each take has its token")
        return [*lines, NOTES if len(self.story.report.threads) > 1 else NOTE]

    def heading(self):
        self.text(8, 16, self.story.report.process, size=13, bold=True)
        for number, line in enumerate(self.notes):
            self.text(8, NOTE_TOP + NOTE_LINE * number, line, fill="#5b6470")

    def draw(self):
        self.axis()
        for thread in self.threads:
            self.thread(thread)
        for number in self.stacks:
            self.stack(number)
        for arrow in self.story.arrows:
            self.arrow(arrow)
        self.heading()
        self.legend()
        body, self.parts = self.parts, []
        self.heads()
        title = quoteattr(f"timeline of a report: {self.story.report.process}")
        head = [f'<svg xmlns="http://www.w3.org/2000/svg" width="{self.width:.0f}" height="{self.height:.0f}" '
                f'viewBox="0 0 {self.width:.0f} {self.height:.0f}" role="img" aria-label={title} '
                'font-family="DejaVu Sans Mono, Menlo, Consolas, monospace">',
                '<rect width="100%" height="100%" fill="#ffffff"/>', "<defs>", *self.parts, "</defs>"]
        return "\n".join([*head, *body, *self.texts, "</svg>"]) + "\n"


def draw(story, window, symbols):
    return Drawing(story, window, symbols).draw()
