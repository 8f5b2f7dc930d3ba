"""Kernel services: for each a generator that yields its accesses between the gate's way in and its way out, and returns
what its record and its result are. Deliveries and rt_sigreturn are in signals.py."""
from collections import namedtuple

from instructions import look
from listing import R8, R9, R10, RDI, RDX, RSI
from places import (DATA_PAGE, DRAW_MMAP, DRAW_SHADOW, EXIT_WORD, LOAD, MASK, MMAP, MMAP_END, NEXT_THREAD, PAGE,
                    REGION_PAGES, SHADOW, SHADOW_END, SHADOW_PAGE, STORE, Fault, entry_of, page_of, pending_word)

EPERM, ESRCH, EBADF, EAGAIN, ENOMEM, EFAULT, EEXIST = 1, 3, 9, 11, 12, 14, 17
EINVAL, ENOSPC, ERANGE, ENOSYS, EOVERFLOW = 22, 28, 34, 38, 75
EXIT = 60
THREADS = 32
FIRST_ID = 1000
CLONE_MUST, CLONE_MAY = 0x100 | 0x800 | 0x10000, 0x200 | 0x400 | 0x40000
ARGUMENTS = (RDI, RSI, RDX, R10, R8, R9)

# `result` is RAX, `record` the record's name, a and b where it isn't `sys`, `last` what is done at the way out's last
# exchange in place of what every service does.
Answer = namedtuple("Answer", "result record last", defaults=(None, None))


class Refused(Exception):
    """An error of a service, by its number."""


def refuse_if(test, error):
    if test:
        raise Refused(error)


def guest_look(address, kind):
    try:
        yield from look(address, kind)
    except Fault:
        raise Refused(EFAULT) from None


def looks(address, size, kind):
    """The alignment test of a structure and the looks at its first and last word."""
    refuse_if(address % 8, EFAULT)
    yield from guest_look(address, kind)
    if size > 8:
        yield from guest_look(address + size - 8 & MASK, kind)


def write(thread, file, address, length):
    refuse_if(file not in (1, 2), EBADF)
    if length == 0:
        return Answer(0)
    count = min(length, 8)
    refuse_if(address + count > 1 << 64, EFAULT)
    last = address + count - 1
    yield from guest_look(address, LOAD)
    yield from guest_look(last, LOAD)
    data = (yield ("load", address & ~7)).to_bytes(8, "little")
    if last & ~7 != address & ~7:
        data += (yield ("load", last & ~7)).to_bytes(8, "little")
    taken = data[address % 8:address % 8 + count]
    return Answer(count, ("wrote", count, int.from_bytes(taken, "little")))


def store_entries(start, pages, rights):
    for page in range(page_of(start), page_of(start) + pages):
        yield ("enter", page, rights and entry_of(page, rights))


def mmap(thread, address, length, rights, flags):
    refuse_if(address or not length or rights != 3 or flags not in (0x22, 0x20022), EINVAL)
    pages = (length + PAGE - 1) // PAGE
    refuse_if(pages > 1024, ENOMEM)
    drawn = yield ("add", DRAW_MMAP, pages)
    refuse_if(drawn + pages > 1024, ENOMEM)
    start = MMAP + PAGE * drawn
    yield from store_entries(start, pages, DATA_PAGE)
    return Answer(start)


def munmap(thread, address, length):
    end = address + (length + PAGE - 1) // PAGE * PAGE
    within = any(low <= address and end <= high for low, high in ((MMAP, MMAP_END), (SHADOW, SHADOW_END)))
    refuse_if(address % PAGE or not length or not within, EINVAL)
    yield from store_entries(address, (end - address) // PAGE, 0)
    return Answer(0)


def draw_region(thread, pages, maker):
    drawn = yield ("add", DRAW_SHADOW, pages + 1)
    refuse_if(drawn + pages + 1 > 1023, ENOMEM)
    start = SHADOW + PAGE * (drawn + 1)
    region = thread.book.claimed(thread.number, start, pages, maker)
    yield from store_entries(start, pages, SHADOW_PAGE)
    return region


def map_shadow_stack(thread, address, size, flags):
    token, pages = flags == 1, (size + PAGE - 1) // PAGE
    refuse_if(flags > 1, EINVAL)
    refuse_if(token and size < 8, ENOSPC)
    refuse_if(0 < address < 1 << 32, ERANGE)
    refuse_if(PAGE * pages >= 1 << 64, EOVERFLOW)
    refuse_if(size == 0 or token and size % 8, EINVAL)
    refuse_if(address, EEXIST)
    refuse_if(pages > 1022, ENOMEM)
    region = yield from draw_region(thread, pages, token)
    if token:
        end = region.start + size
        yield ("store", end - 8, end | 1)
        thread.book.seeded(thread.number, region, (region.end - end) // 8)
    region.reported = True
    return Answer(region.start, ("claim", region.start, size))


def clone(thread, flags, stack):
    refuse_if(flags & CLONE_MUST != CLONE_MUST or flags & ~(CLONE_MUST | CLONE_MAY) or not stack, EINVAL)
    region = yield from draw_region(thread, REGION_PAGES, True)
    child = yield ("add", NEXT_THREAD, 1)
    if child >= THREADS:
        yield from store_entries(region.start, REGION_PAGES, 0)
        raise Refused(EAGAIN)
    thread.book.born(thread.number, child, region)
    region.reported = True
    thread.bear(child, stack, region)
    return Answer(FIRST_ID + child, ("born", child, region.end))


def exit_thread(thread, status):
    yield from store_entries(thread.made, REGION_PAGES, 0)

    def last():
        thread.book.ended(thread.number)
        thread.end = f"exit {status % 256}"
    return Answer(0, ("sys", EXIT, status % 256), last)


def exit_group(thread, status):
    yield ("exchange", EXIT_WORD, 0, 0x100 + status % 256)
    return Answer(status % 256)


def arch_prctl(thread, code, argument):
    refuse_if(code not in (0x5001, 0x5002, 0x5003, 0x5005), EINVAL)
    refuse_if(code in (0x5001, 0x5002), EPERM if argument else EINVAL)
    if code == 0x5005:
        yield from looks(argument, 8, STORE)
        yield ("store", argument, 1)
    return Answer(0)


def sched_yield(thread):
    return Answer(0)
    yield


def gettid(thread):
    return Answer(FIRST_ID + thread.number)
    yield


def tgkill(thread, group, target, signal):
    refuse_if(signal > 31, EINVAL)
    refuse_if(group != FIRST_ID, ESRCH)
    threads = min((yield ("load", NEXT_THREAD)), THREADS)
    refuse_if(not FIRST_ID <= target < FIRST_ID + threads, ESRCH)
    if signal:
        yield ("or", pending_word(target - FIRST_ID), 1 << signal - 1)
    return Answer(0)


def missing(thread):
    raise Refused(ENOSYS)
    yield
