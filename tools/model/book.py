"""Who has which shadow stack with which entries, by the events of a run and not by words. An event that has no case
stops the model: that never comes, whatever a program does."""
from places import FIRST_REGION, PAGE, REGION_PAGES, SHADOW_END


class Illegal(Exception):
    """An event that the book has no case for."""


def require(holds, event):
    if not holds:
        raise Illegal(event)


class Region:
    """A shadow stack. `holder` is a kind and, but for `parked` and `lost`, a thread or a region. Entries are pairs of a
    kind and a value, the newest last."""

    def __init__(self, start, pages, holder):
        self.start, self.end, self.holder, self.entries = start, start + PAGE * pages, holder, []
        self.reported = False

    def room(self):
        return (self.end - self.start) // 8 - len(self.entries)

    def top(self):
        return self.end - 8 * len(self.entries)

    def newest(self):
        return self.entries[-1] if self.entries else ("none", None)


class Book:
    def __init__(self):
        self.regions = [Region(FIRST_REGION, REGION_PAGES, ("current", 0))]
        self.regions[0].reported = True
        self.stacks = {}

    def of(self, thread, event):
        found = [region for region in self.regions if region.holder == ("current", thread)]
        require(len(found) == 1, f"{event}: thread {thread} has {len(found)} stacks")
        return found[0]

    def remove(self, region):
        kind, value = region.entries.pop()
        if kind == "previous":
            value.holder = ("lost", None)

    def called(self, thread, back):
        region = self.of(thread, "called")
        require(region.room() > 0, "called: no room")
        region.entries.append(("call", back))

    def returned(self, thread, target):
        """Also tells that a return to where no call was to return goes to no code."""
        region = self.of(thread, "returned")
        kind, value = region.newest()
        require(kind not in ("none", "frame"), f"returned: {kind}")
        require(kind not in ("call", "restorer") or value == target, f"returned to {target:x} and not to {value}")
        self.remove(region)
        return kind in ("call", "restorer")

    def raised(self, thread, count):
        region = self.of(thread, "raised")
        require(len(region.entries) >= count, "raised: too few entries")
        for _ in range(count):
            self.remove(region)

    def acquired(self, thread, place):
        old = self.of(thread, "acquired")
        found = [region for region in self.regions if region.holder[0] == "parked" and region.top() - 8 == place]
        require(len(found) == 1, f"acquired: {len(found)} stacks with a token at {place:x}")
        found[0].entries.append(("previous", old))
        found[0].holder, old.holder = ("current", thread), ("left", found[0])

    def released(self, thread):
        region = self.of(thread, "released")
        kind, old = region.newest()
        require(kind == "previous" and old.room() > 0, f"released: {kind}")
        region.entries.pop()
        old.holder = ("parked", None)

    def claimed(self, thread, start, pages, maker):
        end = start + PAGE * pages
        last = self.regions[-1].end
        require(1 <= pages <= 1022 and start >= last + PAGE and end <= SHADOW_END - PAGE, "claimed: no place")
        self.regions.append(Region(start, pages, ("maker", thread) if maker else ("lost", None)))
        return self.regions[-1]

    def seeded(self, thread, region, blanks):
        require(region.holder == ("maker", thread) and blanks < region.room(), "seeded")
        region.entries = [("blank", 0)] * blanks
        region.holder = ("parked", None)

    def born(self, thread, child, region):
        require(region.holder == ("maker", thread), "born")
        require(all(other.holder != ("current", child) for other in self.regions), "born: the child has a stack")
        region.holder = ("current", child)

    def pushed(self, thread, restorer):
        region = self.of(thread, "pushed")
        require(region.room() >= 2, "pushed: no room")
        region.entries += [("frame", region.top()), ("restorer", restorer)]

    def popped(self, thread):
        region = self.of(thread, "popped")
        require(region.newest()[0] == "frame", "popped: no frame")
        region.entries.pop()

    def ended(self, thread):
        self.of(thread, "ended").holder = ("lost", None)

    def busied(self, thread, stack):
        require(stack not in self.stacks and thread not in self.stacks.values(), "busied")
        self.stacks[stack] = thread

    def freed(self, thread, stack):
        require(self.stacks.pop(stack) == thread, "freed")

    def in_view(self, region):
        """A stack leads to one that is current or parked by those that it was left for."""
        seen = []
        while region.holder[0] == "left" and region not in seen:
            seen.append(region)
            region = region.holder[1]
        return region.holder[0] in ("current", "parked")

    def lines(self):
        for region in sorted((region for region in self.regions if region.reported), key=lambda one: one.start):
            shown = self.in_view(region)
            kind, value = region.holder if shown else ("lost", None)
            holder = f"{kind} {value}" if kind == "current" else kind
            yield f"region {region.start:016x} {region.end:016x} {holder}"
            for entry in reversed(region.entries) if shown else ():
                yield "  " + entry_text(*entry)


def entry_text(kind, value):
    if kind == "blank":
        return kind
    if kind == "frame":
        return f"frame {value:016x}"
    return f"prev {value.top():016x}" if kind == "previous" else f"ret {value:016x}"
