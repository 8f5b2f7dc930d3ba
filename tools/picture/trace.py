"""The timeline as JSON in Chrome's trace event form, which Perfetto opens: a track for each thread, and for each shadow
stack one with its entries and one with its holder. A place is a microsecond."""
import json

from window import bar_name, group, label

RECORDS, STACKS, HOLDERS = 1, 2, 3
PROCESSES = ((RECORDS, "threads"), (STACKS, "shadow stacks"), (HOLDERS, "holders of the stacks"))


def span(process, track, name, kind, start, end, details):
    return {"ph": "X", "pid": process, "tid": track, "name": name, "cat": kind, "ts": start, "dur": end - start,
            "args": details}


def name_of(process, track, name):
    return {"ph": "M", "pid": process, "tid": track, "name": "thread_name", "args": {"name": name}}


def named(story):
    """The names and the order of the tracks."""
    for process, name in PROCESSES:
        yield {"ph": "M", "pid": process, "name": "process_name", "args": {"name": name}}
        yield {"ph": "M", "pid": process, "name": "process_sort_index", "args": {"sort_index": process}}
    for thread in story.report.threads:
        yield name_of(RECORDS, thread.number, f"thread {thread.number}: {thread.end}")
    for stack in story.stacks:
        for process in (STACKS, HOLDERS):
            yield name_of(process, stack.number, f"stack {stack.start:x}")


def records(story, symbols):
    for thread in story.report.threads:
        for record, place in zip(thread.records, story.order.places[thread.number]):
            details = {"record": record.text, "at": symbols.name(record.rip)}
            yield span(RECORDS, thread.number, label(record), group(record), place, place + 1, details)


def bars(story, symbols):
    for bar in story.bars:
        details = {"opened": bar.opened.text, "at": symbols.name(bar.opened.rip)}
        if bar.closed:
            details["closed"] = bar.closed.text
        name = bar_name(bar, symbols, "{:x}".format)
        yield span(STACKS, bar.stack, name, bar.kind, bar.start, bar.end, details)


def holds(story):
    for hold in story.holds:
        yield span(HOLDERS, hold.stack, hold.holder, "hold", hold.start, hold.end, {})


def flows(story):
    """An arrow is two events. The end of one to a thread is at the thread's first record."""
    for number, arrow in enumerate(story.arrows, 1):
        for phase, (kind, track) in (("s", arrow.source), ("f", arrow.target)):
            place = arrow.place
            if phase == "f" and arrow.kind == "born":
                place = next(iter(story.order.places[track]), place)
            event = {"ph": phase, "id": number, "pid": RECORDS if kind == "thread" else HOLDERS, "tid": track,
                     "name": arrow.kind, "cat": "arrow", "ts": place}
            yield event | ({"bp": "e"} if phase == "f" else {})


def in_window(event, window):
    return "ts" not in event or event["ts"] <= window.last and event["ts"] + event.get("dur", 1) > window.first


def trace(story, window, symbols, note):
    events = [*named(story)]
    timed = [*records(story, symbols), *bars(story, symbols), *holds(story), *flows(story)]
    events += [event for event in timed if in_window(event, window)]
    about = {"process": story.report.process, "places": f"{window.first} to {window.last} of {window.all}"}
    if note:
        about["left out"] = note
    lines = ",\n".join(json.dumps(event) for event in events)
    return f'{{"displayTimeUnit": "ns",\n"otherData": {json.dumps(about)},\n"traceEvents": [\n{lines}\n]}}\n'
