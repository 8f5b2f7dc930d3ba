"""An order of the records of all threads, and each record's place on the axis.

A report has each thread's records by itself. What it tells of their order is this: a thread's records follow its birth;
RSTORSSP follows what made its token, which is one claim or SAVEPREVSSP; and RSTORSSP that finds the word that another
one has left follows that one. A record's place is one more than the last of those before it. So two records of the same
place are of two threads, and nothing is told of which came first."""
from collections import Counter

# States at which several threads may restore, before the search for an order is given up.
MOST_CHOICES = 20000


class State:
    """How far each thread is, which are born, the restore tokens there are, the words that restores have left, the
    threads of the restores so far as pairs of a thread and those before it, and the records so far where they are
    kept."""

    def __init__(self, threads, order=None):
        self.next, self.born, self.tokens, self.words = [0] * threads, {0}, Counter(), frozenset()
        self.takers, self.order = (), order

    def copy(self):
        other = State(0)
        other.next, other.born, other.tokens = list(self.next), set(self.born), Counter(self.tokens)
        other.words, other.takers = self.words, self.takers
        return other


class Order:
    """`records` are all records in an order, `causes` has by line the record that another one needs, `places` has the
    places of each thread's records, and `whole` is false where no order was found that gives each restore its token."""

    def __init__(self, report):
        self.threads = report.threads
        self.count = sum(len(thread.records) for thread in self.threads)
        records = [record for thread in self.threads for record in thread.records]
        self.made = made_tokens(report, records)
        left = {left_word(record) for record in records if record.name == "take"}
        self.missed = {(record.a, record.b) for record in records if is_missed(record)} & left
        self.births = {record.a: record for record in records if record.name == "born"}
        takers = self.search()
        self.whole = takers is not None
        self.records = self.replay(takers) if self.whole else records
        self.causes = self.find_causes()
        self.places = self.find_places()

    def place(self, record):
        return self.places[record.thread][record.number - 1]

    def ready(self, record, state):
        """Whether the record may come next."""
        if record.name == "take":
            return state.tokens[record.a] > 0
        if is_missed(record) and (record.a, record.b) in self.missed:
            return (record.a, record.b) in state.words
        return True

    def search(self):
        """The threads of the restores, in an order in which each finds its token; None where none was found."""
        ways, seen = [State(len(self.threads))], set()
        while ways:
            state = ways.pop()
            self.pass_others(state)
            if sum(state.next) == self.count:
                return listed(state.takers)
            ready = [record for record in self.next_records(state) if self.ready(record, state)]
            if len(ready) > 1:
                if tuple(state.next) in seen or len(seen) == MOST_CHOICES:
                    continue
                seen.add(tuple(state.next))
            for record in ready[1:]:
                ways.append(state.copy())
                self.take(ways[-1], record)
            if ready:
                self.take(state, ready[0])
                ways.append(state)
        return None

    def replay(self, takers):
        """The records, with the restores in this order of threads."""
        state = State(len(self.threads), [])
        for thread in takers:
            self.pass_others(state)
            self.take(state, self.threads[thread].records[state.next[thread]])
        self.pass_others(state)
        return state.order

    def next_records(self, state):
        """The next record of each thread that is born."""
        for number in sorted(state.born):
            if state.next[number] < len(self.threads[number].records):
                yield self.threads[number].records[state.next[number]]

    def pass_others(self, state):
        """Each thread's records up to its next restore."""
        moved = True
        while moved:
            moved = False
            for record in list(self.next_records(state)):
                while record is not None and record.name != "take" and self.ready(record, state):
                    record, moved = self.pass_record(state, record), True

    def pass_record(self, state, record):
        """Passes a record, and answers the next one of its thread."""
        if state.order is not None:
            state.order.append(record)
        state.next[record.thread] = record.number
        if record.name == "born" and record.a < len(self.threads):
            state.born.add(record.a)
        if record.line in self.made:
            state.tokens[self.made[record.line]] += 1
        records = self.threads[record.thread].records
        return records[record.number] if record.number < len(records) else None

    def take(self, state, record):
        state.tokens[record.a] -= 1
        if left_word(record) in self.missed:
            state.words = state.words | {left_word(record)}
        state.takers = (record.thread, state.takers)
        self.pass_record(state, record)

    def find_causes(self):
        causes, tokens, words = {}, {}, {}
        for record in self.records:
            cause = None
            if record.name == "take":
                cause = tokens.pop(record.a, None)
                words[left_word(record)] = record
            elif is_missed(record):
                cause = words.get((record.a, record.b))
            if record.line in self.made:
                tokens[self.made[record.line]] = record
            if cause is not None:
                causes[record.line] = cause
        return causes

    def find_places(self):
        """The places of each thread's records. A cause that comes later in the order counts for nothing."""
        places = [[] for _ in self.threads]
        for record in self.records:
            place = places[record.thread][-1] if places[record.thread] else 0
            needs = [self.causes.get(record.line)]
            if record.number == 1:
                needs.append(self.births.get(record.thread))
            for need in needs:
                if need is not None and need.number <= len(places[need.thread]):
                    place = max(place, places[need.thread][need.number - 1])
            places[record.thread].append(place + 1)
        return places


def left_word(take):
    """The address at which RSTORSSP found its token, and the word that it left there."""
    return take.a, take.b | 3


def is_missed(record):
    """Whether RSTORSSP found another word than its token."""
    return record.name == "#CP" and record.code == 4


def listed(pairs):
    """The items of pairs of an item and the pairs before it, the first one first."""
    items = []
    while pairs:
        items.append(pairs[0])
        pairs = pairs[1]
    return items[::-1]


def made_tokens(report, records):
    """The place of the token that a record makes, by its line. A claim makes one where the stack is switched to, or is
    in view at the end."""
    taken = {record.a for record in records if record.name == "take"}
    shown = {region.start for region in report.regions if region.holder != "lost"}
    made = {}
    for record in records:
        if record.name == "save":
            made[record.line] = record.a
        elif record.name == "claim" and (record.a + record.b - 8 in taken or record.a in shown):
            made[record.line] = record.a + record.b - 8
    return made
