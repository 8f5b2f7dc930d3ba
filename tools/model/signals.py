"""Signals: actions, masks, deliveries and rt_sigreturn."""
from instructions import STATUS, look
from listing import RDI, RSI, RSP
from places import (EXIT_WORD, LOAD, MASK, SHADOW_LOAD, SHADOW_STORE, STORE, Fault, action_words, canonical,
                    pending_word)
from services import EINVAL, Answer, looks, refuse_if

NEVER_MASKED = 1 << 9 - 1 | 1 << 19 - 1
RESTORER, INFORMATION, RESTART, NO_DEFER = 0x04000000, 4, 0x10000000, 0x40000000
DEFAULT, IGNORED = 0, 1
RETURN_SIGNAL = 11
FRAME_MARK = 1 << 63
FRAME_WORDS = 24
CODES = {"#CP": 10, "#GP": 128, "#AC": 128, "#UD": 2}


class Killed(Exception):
    """A kill by a signal."""


def rt_sigaction(thread, signal, new, old, size):
    refuse_if(size != 8 or not 1 <= signal <= 31 or new and signal in (9, 19), EINVAL)
    if new:
        yield from looks(new, 32, LOAD)
    if old:
        yield from looks(old, 32, STORE)
    if new:
        handler, flags, restorer, mask = yield from loads(new, 4)
        if handler > IGNORED:
            refuse_if(not flags & RESTORER or flags & ~(RESTORER | NO_DEFER | RESTART | INFORMATION), EINVAL)
            refuse_if(not thread.program.executable(restorer), EINVAL)
    places = action_words(signal)
    if old:
        before = yield from loads(places[0], 4)
        for index, word in enumerate(before):
            yield ("store", old + 8 * index, word)
    if new and handler > IGNORED:
        for index, word in ((2, restorer), (1, flags), (3, mask), (0, handler)):
            yield ("store", places[index], word)
    elif new:
        yield ("store", places[0], handler)
    return Answer(0)


def loads(start, count):
    words = []
    for index in range(count):
        words.append((yield ("load", start + 8 * index)))
    return words


def rt_sigprocmask(thread, how, change, old, size):
    refuse_if(size != 8 or change and how not in (0, 1, 2), EINVAL)
    if change:
        yield from looks(change, 8, LOAD)
    if old:
        yield from looks(old, 8, STORE)
    before = after = thread.mask
    if change:
        word = yield ("load", change)
        after = (before | word, before & ~word, word)[how] & ~NEVER_MASKED
    if old:
        yield ("store", old, before)

    def last():
        thread.mask = after
    return Answer(0, None, last)


def kill(signal):
    """The exchange of a kill; returns the record's name, a and b."""
    return "kill", signal, (yield ("exchange", EXIT_WORD, 0, 0x200 + signal))


def rt_sigreturn(thread):
    """What is done at the way out's last exchange, and the record's name, a and b."""
    frame = thread.registers[RSP] - 8 & MASK
    try:
        if not canonical(frame) or frame % 8:
            raise Killed
        yield from look(frame, LOAD)
        yield from look(frame + 184 & MASK, LOAD)
        yield from look(thread.ssp, SHADOW_LOAD)
        shadow = yield ("load", thread.ssp)
        if not shadow & FRAME_MARK:
            raise Killed
    except (Fault, Killed):
        return None, (yield from kill(RETURN_SIGNAL))
    words = yield from loads(frame + 8, 19)

    def last():
        thread.registers, thread.rip = words[:16], words[16]
        thread.flags, thread.mask = words[17] & STATUS | 2, words[18] & ~NEVER_MASKED
        thread.ssp = shadow & ~FRAME_MARK
        thread.book.popped(thread.number)
    return last, ("sigret", words[16], shadow & ~FRAME_MARK)


def deliver(thread, signal, fault):
    """The delivery of a pending signal, or of a due fault's: what is done at the last exchange, and the record."""
    if fault is None:
        yield ("and", pending_word(thread.number), ~(1 << signal - 1) & MASK)
    elif thread.mask >> signal - 1 & 1:
        return None, (yield from kill(signal))
    places = action_words(signal)
    handler = yield ("load", places[0])
    if handler == IGNORED and fault is None:
        return None, ("ignore", signal, 0)
    if handler in (DEFAULT, IGNORED):
        return None, (yield from kill(signal))
    flags, restorer, mask = yield from loads(places[1], 3)
    frame = (thread.registers[RSP] - 128 & MASK & ~15) - 200 & MASK
    try:
        if not canonical(frame):
            raise Killed
        yield from look(frame, STORE)
        yield from look(frame + 184 & MASK, STORE)
        yield from look(thread.ssp - 8 & MASK, SHADOW_STORE)
        yield from look(thread.ssp - 16 & MASK, SHADOW_STORE)
    except (Fault, Killed):
        return None, (yield from kill(RETURN_SIGNAL))
    for index, word in enumerate(frame_words(thread, restorer, signal, fault)):
        yield ("store", frame + 8 * index, word)
    yield ("store", thread.ssp - 8, thread.ssp | FRAME_MARK)
    yield ("store", thread.ssp - 16, restorer)
    thread.book.pushed(thread.number, restorer)

    def last():
        thread.ssp -= 16
        thread.registers[RSP], thread.registers[RDI], thread.registers[RSI] = frame, signal, frame
        thread.rip = handler
        thread.mask |= mask & ~NEVER_MASKED | (0 if flags & NO_DEFER else 1 << signal - 1)
    return last, ("signal", signal, thread.ssp - 16)


def frame_words(thread, restorer, signal, fault):
    code, fault_code, address = 0, 0, 0
    if fault is not None:
        fault_code = fault.code
        code = CODES[fault.name] if fault.name in CODES else 1 + (fault.code & 1)
        address = fault.a if fault.name == "#PF" else 0
    words = [restorer, *thread.registers, thread.rip, thread.flags, thread.mask, signal, code, fault_code, address]
    assert len(words) == FRAME_WORDS
    return words
