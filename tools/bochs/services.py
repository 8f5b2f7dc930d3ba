"""Programs that ask for shadow stacks and for other memory with any arguments, give memory back, switch to one of the
stacks that they got, and load and store in the areas. They are for cetvm alone."""
import random

from cases import UD2, Case, restore
from instructions import MASK, R10, RAX, RBX, RDI, RDX, RSI, at, do, load_number
from model import KERNEL, MAP, MAP_SHADOW_STACK, MMAP, SHADOW, SHADOW_END, STACK, UNMAP

PAGE = 4096
ADDRESSES = (1, PAGE, (1 << 32) - 1, 1 << 32, 0x200001000, MASK)
SIZES = (0, 1, 7, 9, PAGE - 1, PAGE + 1, 1022 * PAGE, 1022 * PAGE + 1, 1 << 63, MASK - PAGE, MASK - PAGE + 1,
         MASK - PAGE + 2, MASK)
GOOD_SIZES = (8, 16, 512, PAGE - 8, PAGE, PAGE + 8, 2 * PAGE, 100 * PAGE, 500 * PAGE, 1013 * PAGE, 1014 * PAGE)
FLAGS = (0, 2, 3, 1 << 32, MASK)
LENGTHS = (0, 1023 * PAGE, 1024 * PAGE, 1024 * PAGE + 1, 1 << 63, MASK - PAGE, MASK - PAGE + 2, MASK)
GOOD_LENGTHS = (1, PAGE - 1, PAGE, PAGE + 1, 5000, 3 * PAGE, 300 * PAGE)
RIGHTS = (0, 1, 2, 7, 1 << 32 | 3)
MAP_FLAGS = (0, 2, 0x20, 0x21, 0x32, 0x20002, 1 << 32 | 0x22, MASK)
STARTS = (0, 1, 0x400000, STACK[0], MMAP[0] - PAGE, MMAP[0] + 8, MMAP[1], SHADOW - PAGE, SHADOW_END, KERNEL,
          MASK - PAGE + 1)
GOOD_STARTS = (MMAP[0], MMAP[0] + PAGE, MMAP[0] + 2 * PAGE, MMAP[1] - PAGE, SHADOW, 0x200001000, 0x20000A000,
               0x20000B000, SHADOW_END - PAGE)


def usual(pick, chance, good, others):
    return pick.choice(good) if pick.random() < chance else pick.choice(others)


def call(number, *arguments):
    registers = zip((RDI, RSI, RDX, R10), arguments)
    return [*(load_number(register, value) for register, value in registers),
            do("mov_number_32", RAX, number=number), do("syscall")]


def request(pick):
    """A call of one of the three services."""
    number = pick.choice((MAP_SHADOW_STACK, MAP_SHADOW_STACK, MAP, UNMAP))
    if number == MAP_SHADOW_STACK:
        return call(number, usual(pick, 0.7, (0,), ADDRESSES), usual(pick, 0.6, GOOD_SIZES, SIZES),
                    usual(pick, 0.7, (1,), FLAGS))
    if number == MAP:
        return call(number, usual(pick, 0.9, (0,), ADDRESSES), usual(pick, 0.8, GOOD_LENGTHS, LENGTHS),
                    usual(pick, 0.9, (3,), RIGHTS), usual(pick, 0.9, (0x22, 0x20022), MAP_FLAGS))
    return call(number, usual(pick, 0.8, GOOD_STARTS, STARTS), usual(pick, 0.8, GOOD_LENGTHS, LENGTHS))


def touch(pick):
    """A load or a store at the start of a page of the areas."""
    name = pick.choice(("mov_load", "mov_store"))
    return [load_number(RBX, pick.choice(GOOD_STARTS)), do(name, RAX, at(RBX))]


def services(seed, count):
    for number in range(count):
        pick = random.Random(f"{seed}.services.{number}")
        before = [item for _ in range(pick.randrange(1, 12)) for item in request(pick)]
        name = f"services {seed}.{number}"
        tokens = sorted(Case(name, [UD2], before).start.words)
        switch = [*restore(pick.choice(tokens)), do("saveprevssp")] if tokens else []
        touches = [item for _ in range(pick.randrange(4)) for item in touch(pick)]
        yield Case(name, [*switch, *touches, UD2], before)
