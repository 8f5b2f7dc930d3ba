#!/usr/bin/env python3
"""Checks where the definitions stand: that each name of the table "Where the definitions stand" in docs/crates.md is
defined in a file that its row names, that no file of specs/ or src/ uses a crate's proofs by name, and that a clause
rests on every item of specs/. It prints a line for each miss and ends with status 1 where there is one.

A clause rests on the names that src/ brings in by `ghost use`, and on all that the items of these names mention. What a
file mentions is read off its words and its `use` lines, without the prover. So an item that is named and not needed
passes, and one that is needed and reported would be a fault of this script.

    tools/definitions.py [TOP]      TOP: the top of a clone, else the one in which the script stands
"""
import re
import sys
from pathlib import Path

TOP = Path(sys.argv[1]) if len(sys.argv) > 1 else Path(__file__).resolve().parent.parent
USE = re.compile(r"^[ \t]*(?:pub )?(?:ghost )?use ([^\s{};]+?)(?:\.\{([^}]*)\})?(?: as ([^\s;]+))?;?$", re.M)
KIND = r"(?:(?:abbrev|unfoldable|record|data) )"
HEAD = re.compile(rf"^(?:(?:pub )?{KIND}+(?:pub )?(?P<kind>\S+)|(?:pub )?(?P<plain>\S+) :)(?=\s|$)")
INNER_HEAD = re.compile(rf"^  (?:pub )?{KIND}(?:pub )?(?P<kind>\w\S*)(?: \(.*\))? :(?=\s|$)")
MEMBER = re.compile(r"^ {2,4}(?:pub )?(\S+) :(?=\s|$)")
WORD = re.compile(r"[^\s(){}\[\],;λ`]+")


class File:
    """A file's imports (the word in it, and the module and name that it stands for), its aliases of modules, its items
    with their text, and the data type or record that each constructor and field belongs to."""

    def __init__(self, path):
        self.path = path
        text = re.sub(r"^\s*(--|//).*$", "", path.read_text(encoding="utf-8"), flags=re.M)
        self.imports, self.aliases = {}, {}
        for module, names, alias in USE.findall(text):
            if not names:
                self.aliases[alias or module.split(".")[-1]] = module
            for name in filter(None, map(str.strip, names.split(","))):
                name, _, other = name.partition(" as ")
                self.imports[other or name] = (module, name)
        self.text = USE.sub("", text)
        self.items, self.owners = {}, {}

    def read_items(self):
        item = None
        for line in self.text.splitlines():
            if re.match(r"\s*infix", line):
                continue
            head = HEAD.match(line) or INNER_HEAD.match(line)
            if head:
                item = head.groupdict().get("kind") or head.groupdict().get("plain")
            if item is None:
                continue
            self.items[item] = self.items.get(item, "") + line + "\n"
            member = MEMBER.match(line)
            if member and re.match(r"\s*(abbrev |unfoldable |pub )*(record|data) ", self.items[item]):
                self.owners[member.group(1)] = item
        return self

    def mentions(self, text):
        """The modules and names that the words of `text` stand for in this file."""
        words = {word.strip(".") for word in WORD.findall(text)}
        if "do" in words:
            words.add(">>=")
        for name in (*self.imports, *self.items, *self.owners):
            signs = [sign for sign in name.split("◌") if sign]
            if name in words or "◌" in name and any(sign in words for sign in signs):
                yield self.imports.get(name, (None, name))
        for word in words:
            alias, _, name = word.partition(".")
            if name and alias in self.aliases:
                yield self.aliases[alias], name.split(".")[0]
            elif name and alias in self.imports:
                yield self.imports[alias]


def module_of(path):
    crate, *rest = path.relative_to(TOP / "crates").with_suffix("").parts
    return ".".join(["Rattle", crate, *rest])


def unused(specs):
    """The items on which no clause rests, as pairs of module and name."""
    reached, ahead = set(), []

    def go(module, name):
        file = specs.get(module)
        if file:
            name = name if name in file.items else file.owners.get(name, name)
        if file and name in file.items and (module, name) not in reached:
            reached.add((module, name))
            ahead.append((module, name))

    for path in sorted(TOP.glob("crates/*/src/**/*.rt")):
        file = File(path)
        for module, name in file.mentions(file.text):
            go(module, name)
    while ahead:
        here, name = ahead.pop()
        for module, other in specs[here].mentions(specs[here].items[name]):
            go(module or here, other)
    return [(module, name) for module, file in specs.items() for name in file.items if (module, name) not in reached]


def table_rows(document):
    """The names and the files of each row of the table."""
    lines = document.read_text(encoding="utf-8").split("## Where the definitions stand", 1)[-1].splitlines()
    for line in lines[1:]:
        if line.startswith("## "):
            return
        cells = [cell.strip() for cell in line.strip("|").split("|")]
        if len(cells) == 2 and ".antt" in cells[1]:
            folder, files = "", []
            for file in cells[1].split(", "):
                folder = file.rpartition("/")[0] or folder
                files.append(TOP / "crates" / folder / file.rpartition("/")[2])
            yield re.findall(r"`([^`]+)`", cells[0]), files


def table_misses(specs, document):
    for names, paths in table_rows(document):
        files = [specs.get(module_of(path)) for path in paths]
        for path, file in zip(paths, files):
            if file is None:
                yield f"{document.relative_to(TOP)}: there is no file {path.relative_to(TOP)} of definitions"
        for name in names:
            if not any(file and (name in file.items or name in file.owners) for file in files):
                where = ", ".join(path.name for path in paths)
                yield f"{document.relative_to(TOP)}: `{name}` isn't defined in {where}"


def proof_uses():
    crates = "|".join(path.name for path in sorted((TOP / "crates").iterdir()))
    found = re.compile(rf"Rattle\.(?:{crates})\.proofs\b")
    for path in sorted([*TOP.glob("crates/*/specs/**/*.antt"), *TOP.glob("crates/*/src/**/*.rt")]):
        for number, line in enumerate(path.read_text(encoding="utf-8").splitlines(), 1):
            if found.search(line):
                yield f"{path.relative_to(TOP)}:{number}: names a file of proofs/, on which no contract rests"


def main():
    paths = [path for path in sorted(TOP.glob("crates/*/specs/**/*.antt")) if path.name != "Lib.antt"]
    specs = {module_of(path): File(path).read_items() for path in paths}
    misses = [*table_misses(specs, TOP / "docs" / "crates.md"), *proof_uses()]
    for module, name in unused(specs):
        misses.append(f"{specs[module].path.relative_to(TOP)}: no clause rests on `{name}`: delete it, or move it to proofs/")
    for miss in misses:
        print(f"definitions: {miss}")
    if misses:
        return 1
    print(f"definitions: {sum(len(file.items) for file in specs.values())} in {len(specs)} files as stated")
    return 0


if __name__ == "__main__":
    sys.exit(main())
