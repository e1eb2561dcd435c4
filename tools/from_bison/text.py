"""Files with a position, C code, and the notes about what a conversion changes."""
import bisect
import re
import sys


class Unreadable(Exception):
    """The file isn't a flex or bison file, as far as these modules read them."""


# The ranks of notes, the gravest first.
CHANGE, LOST, HARMLESS = range(3)


class Notes:
    """What a conversion drops or changes, by rank, file and line."""

    def __init__(self, path):
        self.path, self.found = path, []

    def add(self, line, what, rank=HARMLESS):
        self.found.append((rank, self.path, line, what))


def print_notes(found):
    """Prints notes on standard error, the gravest first, and those of one file by line."""
    paths = list(dict.fromkeys(path for _, path, _, _ in found))
    for _, path, line, what in sorted(dict.fromkeys(found), key=lambda it: (it[0], paths.index(it[1]), it[2])):
        print(f"{path}:{line}: {what}", file=sys.stderr)


class GivenText:
    """A text and a position in it."""

    def __init__(self, text):
        self.text, self.at = text, 0

    def ends(self):
        return self.at >= len(self.text)

    def match(self, pattern):
        """The match of the pattern at the position, which moves to its end; None if there is none."""
        found = pattern.match(self.text, self.at)
        if found:
            self.at = found.end()
        return found

    def starts(self, word):
        return self.text.startswith(word, self.at)


class Text(GivenText):
    """A file and a position in it."""

    def __init__(self, path):
        self.path = path
        with open(path, encoding="latin-1", newline="") as file:
            super().__init__(file.read())
        self.ends_of_lines = [found.start() for found in re.finditer("\n", self.text)]

    def line(self, at=None):
        return bisect.bisect_left(self.ends_of_lines, self.at if at is None else at) + 1

    def place(self, at):
        """The line and the column of an offset, both counted from 1."""
        line = self.line(at)
        return line, at - (self.ends_of_lines[line - 2] if line > 1 else -1)

    def offset(self, line, column):
        """The offset of a line and a column."""
        return (self.ends_of_lines[line - 2] if line > 1 else -1) + column

    def error(self, what, at=None):
        """An error about an offset, or about the position."""
        return Unreadable(f"{self.path}:{self.line(at)}: {what}")

    def braces(self):
        """The C code between the brace at the position and the one that closes it, without both."""
        start, depth = self.at, 0
        while not self.ends():
            piece = self.match(C_PIECE)[0]
            depth += (piece == "{") - (piece == "}")
            if depth == 0:
                return self.text[start + 1 : self.at - 1]
        raise self.error("a brace that isn't closed", start)


# comments, strings, characters and single bytes of C
C_PIECE = re.compile(r"/\*.*?(?:\*/|\Z)|//[^\n]*|\"(?:\\.|[^\"\\\n])*\"?|'(?:\\.|[^'\\\n])*'?|.", re.DOTALL)
C_COMMENT = re.compile(r"/\*.*?(?:\*/|\Z)|//[^\n]*", re.DOTALL)


def without_comments(code):
    """C code without its comments; strings stay."""
    return "".join(" " if it[0].startswith(("/*", "//")) else it[0] for it in C_PIECE.finditer(code))


def without_strings(code):
    """C code without the content of its strings and characters."""
    return "".join(it[0][0] * 2 if it[0][0] in "\"'" else it[0] for it in C_PIECE.finditer(code))
