"""Addresses, pages and page entries, and the page check."""

MASK = (1 << 64) - 1
PAGE = 4096
IMAGE, IMAGE_END = 0x400000, 0x800000
STACK, STACK_END = 0x7FFC0000, 0x80000000
MMAP, MMAP_END = 0x100000000, 0x100400000
SHADOW, SHADOW_END = 0x200000000, 0x200400000
KERNEL, KERNEL_END = 0xFFFF800000000000, 0xFFFF800000012000
# Of each range: the number of its first page, its first address, the address past its end.
RANGES = ((0, IMAGE, IMAGE_END), (1024, STACK, STACK_END), (1088, MMAP, MMAP_END), (2112, SHADOW, SHADOW_END),
          (3136, KERNEL, KERNEL_END))
STACK_TOP = 0x7FFFFFC0
FIRST_REGION = 0x200001000
REGION_PAGES = 8

PRESENT, WRITABLE, USER, ACCESSED, DIRTY, NO_EXECUTE = 1, 2, 4, 32, 64, 1 << 63
EXECUTABLE_PAGE = PRESENT | USER | ACCESSED
DATA_PAGE = PRESENT | WRITABLE | USER | ACCESSED | DIRTY | NO_EXECUTE
SHADOW_PAGE = PRESENT | USER | ACCESSED | DIRTY | NO_EXECUTE
KERNEL_PAGE = PRESENT | WRITABLE | ACCESSED | DIRTY | NO_EXECUTE
SUPERVISOR_PAGE = PRESENT | ACCESSED | DIRTY | NO_EXECUTE

# Kinds of access, by the bits that they set in a page fault's code.
LOAD, STORE, FETCH, SHADOW_LOAD, SHADOW_STORE = 0, 2, 16, 64, 66

# Words of the first kernel page.
EXIT_WORD, NEXT_THREAD, DRAW_SHADOW, DRAW_MMAP = (KERNEL + 8 * index for index in range(4))
RETURN_WORD = 0xFFFF800000100000


def pending_word(thread):
    return KERNEL + 8 * (32 + thread)


def action_words(signal):
    """Handler, flags, restorer, mask."""
    return [KERNEL + 8 * (64 + 4 * signal + index) for index in range(4)]


def token_place(stack):
    """Where the token of a supervisor stack is."""
    return KERNEL + PAGE * (2 * stack + 3) - 8


def canonical(address):
    return address >> 47 in (0, (1 << 17) - 1)


def page_of(address):
    """The number of the page, or nothing."""
    for first, start, end in RANGES:
        if start <= address < end:
            return first + (address - start) // PAGE
    return None


def entry_of(page, rights):
    return rights | (page + 256) << 12


class Fault(Exception):
    """A fault: its name, its error code, and the two values of its record."""

    def __init__(self, name, code=0, a=0, b=0):
        super().__init__(name)
        self.name, self.code, self.a, self.b = name, code, a, b

    def signal(self):
        return 4 if self.name == "#UD" else 11


def check(entry, kind, address):
    """The page check of an access by the user: faults, or does nothing."""
    allowed = entry & PRESENT and entry & USER
    if kind == FETCH:
        allowed = allowed and not entry & NO_EXECUTE
    if kind == STORE:
        allowed = allowed and entry & WRITABLE
    if kind in (SHADOW_LOAD, SHADOW_STORE):
        allowed = allowed and not entry & WRITABLE and entry & DIRTY
    if not allowed:
        raise Fault("#PF", entry & PRESENT | 4 | kind, address, entry)
