#!/usr/bin/env python3
"""Runs programs of a small language with indented blocks, with a tokenizer of its own and lytab's parser.

    blocks.py FILE

The tables are built from blocks.l and blocks.y beside this file, and lytab.py must be on Python's path. The status is 1
if the program has a syntax error.
"""
import pathlib
import re
import sys
from typing import Dict, Iterator, Tuple

import lytab

HERE = pathlib.Path(__file__).resolve().parent
WORD = re.compile(rb"(?P<NUMBER>[0-9]+)|(?P<NAME>[a-z]+)|(?P<sign>[-+<=:])|[ ]+")
KEYWORDS = {b"if": "IF", b"while": "WHILE", b"print": "PRINT"}
Token = Tuple[str, int, int]


class Unreadable(ValueError):
    """No token begins at this byte, or the indentation ends no block."""


def words(text: bytes, at: int, end: int) -> Iterator[Token]:
    """The tokens of a line between two bytes."""
    while at < end:
        found = WORD.match(text, at, end)
        if not found:
            raise Unreadable(at)
        name = f"'{found[0].decode()}'" if found.lastgroup == "sign" else KEYWORDS.get(found[0], found.lastgroup)
        if name:
            yield name, at, found.end()
        at = found.end()


def tokens(text: bytes) -> Iterator[Token]:
    """The tokens of a program. INDENT has the additional blanks of its line. DEDENT has no bytes: it is at the start of
    the first line after the block, or at the end of the text."""
    blocks = [0]
    for line in re.finditer(rb"( *)([^\n#]*)[^\n]*", text):
        indent, behind = len(line[1]), line.end(2)
        if not line[2].strip():
            continue
        if indent > blocks[-1]:
            yield "INDENT", line.start() + blocks[-1], line.end(1)
            blocks.append(indent)
        while indent < blocks[-1]:
            blocks.pop()
            yield "DEDENT", line.end(1), line.end(1)
        if indent != blocks[-1]:
            raise Unreadable(line.end(1))
        yield from words(text, line.end(1), behind)
        yield "NEWLINE", line.end(), min(line.end() + 1, len(text))
    yield from (("DEDENT", len(text), len(text)) for _ in blocks[1:])


def value(part: lytab.Part, names: Dict[bytes, int]) -> int:
    """The value of an expression."""
    if isinstance(part, lytab.Token):
        return int(part.text) if part.name == "NUMBER" else names.get(part.text, 0)
    left, right = (value(it, names) for it in part.children)
    return {"Less": int(left < right), "Add": left + right, "Subtract": left - right}[part.name]


def run(part: lytab.Part, names: Dict[bytes, int]) -> None:
    """Executes statements."""
    if part is None:
        return
    first, second = part.children if len(part.children) == 2 else (part.children[0], None)
    if part.name == "Set":
        names[first.text] = value(second, names)
    elif part.name == "Print":
        print(value(first, names))
    elif part.name == "If" and value(first, names):
        run(second, names)
    elif part.name == "While":
        while value(first, names):
            run(second, names)
    elif part.name in ("Program", "Then"):
        run(first, names)
        run(second, names)


def main(path: str) -> int:
    tables = lytab.Tables.build((HERE / "blocks.l").read_bytes(), (HERE / "blocks.y").read_bytes())
    text = pathlib.Path(path).read_bytes()
    try:
        run(tables.parse_tokens(text, tokens(text)), {})
    except Unreadable as fault:
        line, column = lytab.locate(text, fault.args[0])
        print(f"{path}:{line}:{column}: no token begins here, or the indentation ends no block", file=sys.stderr)
        return 1
    except lytab.SyntaxFault as fault:
        wanted = " ".join(fault.expected)
        print(f"{path}:{fault.line}:{fault.column}: unexpected {fault.name}; expected: {wanted}", file=sys.stderr)
        print(f"    {text.splitlines()[fault.line - 1].decode()}\n    {' ' * (fault.column - 1)}^", file=sys.stderr)
        return 1
    return 0


if __name__ == "__main__":
    sys.exit(main(sys.argv[1]) if len(sys.argv) == 2 else __doc__)
