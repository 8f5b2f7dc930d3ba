#!/usr/bin/env python3
"""Prints the longest chain of crates, of those that are there and with those that are planned.

A proof from nothing takes at least as long as its longest chain, so no chain may have more than
eight crates. Libraries of the kit don't count. Run it anywhere; it reads crates.txt at the top and
planned_crates.txt beside this file, and fails where a chain is too long.
"""

import sys
from pathlib import Path

MOST = 8
TOOLS = Path(__file__).resolve().parent


def read_needs(path):
    """The crates of a file, each with the names that it needs."""
    needs = {}
    for line in path.read_text().splitlines():
        line = line.split("#")[0]
        if ":" in line:
            name, names = line.split(":")
            needs[name.split()[0]] = names.split()
    return needs


def longest_chain(needs):
    """The longest chain, from the lowest crate up. The kit's libraries have no line and don't count."""
    chains = {}

    def chain_to(name, above):
        if name in above:
            sys.exit("a cycle: " + " ".join([*above, name]))
        if name not in chains:
            below = [chain_to(need, [*above, name]) for need in needs[name] if need in needs]
            chains[name] = [*max(below, key=len, default=[]), name]
        return chains[name]

    return max((chain_to(name, []) for name in sorted(needs)), key=len)


def main():
    present = read_needs(TOOLS.parent / "crates.txt")
    planned = {name: list(names) for name, names in present.items()}
    for name, names in read_needs(TOOLS / "planned_crates.txt").items():
        planned.setdefault(name, []).extend(names)
    too_long = False
    for label, needs in [("longest chain today", present), ("with the planned crates", planned)]:
        chain = longest_chain(needs)
        print(f"{label}: {len(chain)}: {' '.join(chain)}")
        too_long = too_long or len(chain) > MOST
    if too_long:
        sys.exit(f"a chain has more than {MOST} crates")


if __name__ == "__main__":
    main()
