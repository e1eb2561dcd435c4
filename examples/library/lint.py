#!/usr/bin/env python3
"""Finds probable mistakes in configuration files: duplicate names in a section, empty sections, and lists with values
of different kinds.

    lint.py FILE..

It reads config.l and config.y beside itself, and needs lytab.py on Python's path. The status is 1 if it found
something, or if a file has a syntax error.
"""
import pathlib
import sys
from typing import Iterator, List, Tuple

import lytab

HERE = pathlib.Path(__file__).resolve().parent
Found = Tuple[int, str]


def line_of(text: bytes, byte: int) -> int:
    """The line of a byte."""
    return lytab.locate(text, byte)[0]


def duplicates(text: bytes, entries: lytab.Part) -> Iterator[Found]:
    """The names that a section has more than once."""
    first = {}
    for entry in lytab.flat(entries, "Entries", "first"):
        name = entry.children[0]
        if name.text in first:
            line = line_of(text, first[name.text].start)
            yield name.start, f"duplicate name {name.text.decode()}; first used on line {line}"
        first.setdefault(name.text, name)


def is_mixed(list_: lytab.Node) -> bool:
    """Whether a list has values of different kinds."""
    values = lytab.flat(list_.children[0], "Values", "first") if list_.children else []
    return len({"truth" if it.name in ("YES", "NO") else it.name for it in values}) > 1


def findings(text: bytes, tree: lytab.Node) -> Iterator[Found]:
    """The findings in a file, each with its offset."""
    yield from duplicates(text, tree.children[0])
    for part in tree.walk():
        if not isinstance(part, lytab.Node):
            continue
        if part.name == "Section":
            yield from duplicates(text, part.children[1])
            if part.children[1] is None:
                yield part.start, f"empty section {part.children[0].text.decode()}"
        elif part.name == "List" and is_mixed(part):
            yield part.start, "list with values of different kinds"


def main(paths: List[str]) -> int:
    tables = lytab.Tables.build((HERE / "config.l").read_bytes(), (HERE / "config.y").read_bytes())
    status = 0
    for path in paths:
        text = pathlib.Path(path).read_bytes()
        try:
            found = sorted(findings(text, tables.parse(text)))
        except lytab.SyntaxFault as fault:
            found, status = [], 1
            print(f"{path}:{fault}")
        for byte, message in found:
            line, column = lytab.locate(text, byte)
            print(f"{path}:{line}:{column}: {message}")
            status = 1
    return status


if __name__ == "__main__":
    if not sys.argv[1:]:
        sys.exit(__doc__)
    sys.exit(main(sys.argv[1:]))
