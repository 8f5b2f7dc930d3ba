"""Names for addresses, from a file that `nm` has printed."""
import re
from bisect import bisect_right

from report import Faulty, shown

LINE = re.compile(r"([0-9a-fA-F]{8,16}) (?:[0-9a-fA-F]{8,16} )?([A-Za-z?-]) (\S.*)")
WITHOUT = re.compile(r" *[A-Za-z?-] \S.*|\S.*:|")
CODE = "tTwW"
IMAGE_START, IMAGE_END = 0x400000, 0x800000


class Symbols:
    """The symbols of code, by address."""

    def __init__(self, pairs=()):
        first = {}
        for address, name in pairs:
            first.setdefault(address, name)
        self.addresses = sorted(first)
        self.names = [first[address] for address in self.addresses]

    def name(self, address):
        """The name of a place in the image, with its distance from there; else the address."""
        place = bisect_right(self.addresses, address) - 1
        if place < 0 or not IMAGE_START <= address < IMAGE_END:
            return f"{address:x}"
        distance = address - self.addresses[place]
        return self.names[place] + (f"+0x{distance:x}" if distance else "")


def read_symbols(data):
    """The symbols of what `nm` printed. Lines without an address are passed over."""
    pairs = []
    for number, line in enumerate(data.decode("utf-8", "replace").splitlines(), 1):
        match = LINE.fullmatch(line)
        if match and match[2] in CODE:
            pairs.append((int(match[1], 16), match[3]))
        elif not match and not WITHOUT.fullmatch(line):
            raise Faulty(number, f"nm prints an address, a letter and a name, and not {shown(line)}")
    if not pairs:
        raise Faulty(1, "there is no symbol of code")
    return Symbols(pairs)
