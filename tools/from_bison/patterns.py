"""Patterns of flex, read as trees and written as lytab has them."""
import re

from .text import GivenText, Unreadable

PIECE = re.compile(r'"(?:\\.|[^"\\\n])*"|\[\^?\]?(?:\[:\^?\w+:\]|\\.|[^\]\\\n])*\]|\\.|[^\s]', re.DOTALL)
WHOLE = re.compile(rf"(?:{PIECE.pattern})*", re.DOTALL)
QUOTED = re.compile(r'"((?:\\.|[^"\\\n])*)"', re.DOTALL)
ESCAPE = re.compile(r"\\(?:[0-7]{1,3}|x[0-9a-fA-F]{1,2}|.)", re.DOTALL)
UNIT = re.compile(rf"{ESCAPE.pattern}|.", re.DOTALL)
BRACKET = re.compile(r"\[\^?\]?(?:\[:\^?\w+:\]|\\.|[^\]\\\n])*\]", re.DOTALL)
ITEM = re.compile(rf"\[:\w+:\]|(?:{UNIT.pattern})(?:-(?:{ESCAPE.pattern}|[^\]]))?", re.DOTALL)
NAME = re.compile(r"\{([A-Za-z_][\w-]*)\}")
INTERVAL = re.compile(r"\{(\d+)(?:,(\d*))?\}")
SET_OPERATION = re.compile(r"\{[-+]\}")
NEGATED = re.compile(r"\[:\^(\w+):\]")
CONTROLS = {"a": 7, "b": 8, "f": 12, "n": 10, "r": 13, "t": 9, "v": 11}


def value(unit):
    """The byte of a character or an escape."""
    if unit[0] != "\\" or len(unit) == 1:
        return ord(unit)
    if unit[1] in "01234567":
        return int(unit[1:], 8) & 255
    if unit[1] == "x" and len(unit) > 2:
        return int(unit[2:], 16)
    return CONTROLS.get(unit[1], ord(unit[1]))


def other_case(byte):
    """The other letter of a pair; None for a byte that is no letter."""
    letter = chr(byte)
    return ord(letter.swapcase()) if letter.isascii() and letter.isalpha() else None


class Node:
    """A part of a pattern: `kind` is byte, string, set, dot, name, cat, alt or repeat; `text` is what the file has."""

    def __init__(self, kind, text="", parts=(), most=None, least=0):
        self.kind, self.text, self.parts, self.least, self.most = kind, text, list(parts), least, most


class Pattern:
    """A pattern: whether it begins with ^ and ends with $, and both sides of the trailing context."""

    def __init__(self, main, trailing, at_start, at_end):
        self.main, self.trailing, self.at_start, self.at_end = main, trailing, at_start, at_end

    def has_anchor(self):
        return bool(self.trailing or self.at_start or self.at_end)


class Reader:
    """Reads a pattern that is given as a text."""

    def __init__(self, text):
        self.text, self.depth = GivenText(text), 0

    def pattern(self):
        text = self.text
        at_start = text.starts("^")
        text.at += at_start
        main = self.alternatives()
        trailing = None
        if text.starts("/"):
            text.at += 1
            trailing = self.alternatives()
        at_end = text.text[text.at :] == "$"
        if not at_end and not text.ends():
            raise Unreadable("a parenthesis that isn't open" if text.starts(")") else "two trailing contexts")
        return Pattern(main, trailing, at_start, at_end)

    def stops(self):
        text = self.text
        return text.ends() or text.starts(("|", ")", "/")) or (self.depth == 0 and text.text[text.at :] == "$")

    def alternatives(self):
        found = [self.sequence()]
        while self.text.starts("|"):
            self.text.at += 1
            found.append(self.sequence())
        return found[0] if len(found) == 1 else Node("alt", parts=found)

    def sequence(self):
        found = []
        while not self.stops():
            found.append(self.repeated(self.atom()))
        return found[0] if len(found) == 1 else Node("cat", parts=found)

    def repeated(self, node):
        """A part with the operators after it, each of which binds as tightly as flex has it."""
        while True:
            if self.text.starts(("*", "+", "?")) and not self.text.ends():
                sign = self.text.text[self.text.at]
                self.text.at += 1
                node = Node("repeat", sign, [node], 1 if sign == "?" else None, int(sign == "+"))
                continue
            if self.text.match(SET_OPERATION):
                raise Unreadable("sets that are added or subtracted, as {-}")
            found = self.text.match(INTERVAL)
            if not found:
                return node
            least = int(found[1])
            most = least if found[2] is None else int(found[2]) if found[2] else None
            if max(least, most or 0) > 255:
                raise Unreadable("an interval above 255")
            node = Node("repeat", found[0], [node], most, least)

    def atom(self):
        text = self.text
        found = text.match(QUOTED)
        if found:
            return Node("string", found[1])
        found = text.match(ESCAPE)
        if found:
            return Node("byte", found[0])
        if text.starts("["):
            found = text.match(BRACKET)
            if not found:
                raise Unreadable("a bracket expression that isn't closed")
            if NEGATED.search(found[0]):
                raise Unreadable("a negated class, as [:^alpha:]")
            return Node("set", found[0])
        if text.starts("(?"):
            raise Unreadable("flags of flex, as (?i:")
        if text.starts("("):
            text.at += 1
            self.depth += 1
            inside = self.alternatives()
            self.depth -= 1
            if not text.starts(")"):
                raise Unreadable("a parenthesis that isn't closed, or a blank within it")
            text.at += 1
            return inside
        found = text.match(NAME)
        if found:
            return Node("name", found[1])
        unit = text.match(UNIT)[0]
        if unit in '*+?{"':
            raise Unreadable(f"{unit} that nothing precedes" if unit in "*+?" else f"a {unit} that isn't closed")
        return Node("dot") if unit == "." else Node("byte", unit)


class Writer:
    """Writes patterns as lytab has them. `definitions` has the trees of names; `has_both_cases` is %option caseless."""

    def __init__(self, definitions, has_both_cases=False):
        self.definitions, self.has_both_cases = definitions, has_both_cases

    def pattern(self, it):
        shown = ("^" if it.at_start else "") + self.text(it.main)
        if it.trailing:
            shown += "/" + self.text(it.trailing)
        shown = "\\" + shown if shown.startswith("<") else shown
        return shown + ("$" if it.at_end else "")

    def text(self, node):
        """The text of a part, for a place where alternatives may stand."""
        if node.kind == "alt":
            return "|".join(map(self.text, node.parts))
        if node.kind == "cat":
            return "".join(map(self.part, node.parts)) or '""'
        return self.part(node)

    def part(self, node):
        """The text of a part of a sequence, for an operator to follow it."""
        kind = node.kind
        if kind in ("alt", "cat"):
            return f"({self.text(node)})"
        if kind == "repeat":
            inside = self.part(node.parts[0])
            # (an interval of POSIX repeats all that precedes it)
            return f"({inside}{node.text})" if node.text[0] == "{" else inside + node.text
        if kind == "dot":
            return "."
        if kind == "name":
            return "{" + node.text.replace("-", "_") + "}"
        if kind == "set":
            return self.set(node.text)
        if kind == "string":
            return self.string(node.text)
        return self.byte(node.text)

    def byte(self, unit):
        other = other_case(value(unit)) if self.has_both_cases else None
        if other is not None:
            return f"[{chr(value(unit))}{chr(other)}]"
        return "\\" + unit if unit in ("^", "$") else unit

    def string(self, text):
        units = UNIT.findall(text)
        if not self.has_both_cases or all(other_case(value(it)) is None for it in units):
            return f'"{text}"'
        shown = [self.byte(it) if it.isalnum() and len(it) == 1 else f'"{it}"' for it in units]
        return f"({''.join(shown)})"

    def set(self, text):
        if not self.has_both_cases:
            # (a bracket in flex's is itself before all but a colon)
            return re.sub(r"(?<!^)\[(?=[.=])", r"\\[", text)
        start = 2 if text[1] == "^" else 1
        members, classes = set(), []
        for item in ITEM.findall(text[start:-1]):
            if item.startswith("[:"):
                classes.append({"[:lower:]": "[:alpha:]", "[:upper:]": "[:alpha:]"}.get(item, item))
                continue
            ends = UNIT.findall(item)
            members.update(range(value(ends[0]), value(ends[-1]) + 1) if len(ends) == 3 else map(value, ends))
        members |= {other_case(it) for it in members} - {None}
        return text[:start] + "".join([*ranges(sorted(members)), *dict.fromkeys(classes)]) + "]"

    # ---- lengths

    def length(self, node):
        """The length of all strings of a part; None if they differ."""
        kind = node.kind
        if kind == "string":
            return len(UNIT.findall(node.text))
        if kind == "name":
            return self.length(self.definitions[node.text]) if node.text in self.definitions else None
        lengths = [self.length(it) for it in node.parts]
        if kind == "cat":
            return None if None in lengths else sum(lengths)
        if kind == "alt":
            return lengths[0] if len(set(lengths)) == 1 else None
        if kind == "repeat":
            return lengths[0] * node.least if lengths[0] is not None and node.least == node.most else None
        return 1

    def may_be_empty(self, node):
        """Whether a part has the empty string."""
        kind = node.kind
        if kind == "name":
            return node.text in self.definitions and self.may_be_empty(self.definitions[node.text])
        if kind == "repeat":
            return node.least == 0 or self.may_be_empty(node.parts[0])
        if kind in ("cat", "alt"):
            return (all if kind == "cat" else any)(map(self.may_be_empty, node.parts))
        return kind == "string" and not node.text

    def least_front(self, node):
        """A part that a text begins with exactly if it begins with this one; None for one that all texts begin with."""
        if self.may_be_empty(node):
            return None
        if node.kind == "cat":
            parts = list(node.parts)
            while self.may_be_empty(parts[-1]):
                parts.pop()
            parts[-1] = self.least_front(parts[-1])
            return Node("cat", parts=parts)
        if node.kind == "repeat" and node.least >= 1 and node.text[0] == "+":
            return self.least_front(node.parts[0])
        if node.kind == "name":
            return self.least_front(self.definitions[node.text]) if node.text in self.definitions else node
        return node

    def split(self, node, count):
        """A part in two, the first of so many bytes, or the second if the count is negative; None if that isn't
        possible."""
        parts = node.parts if node.kind == "cat" else [node]
        units = []
        for it in parts:
            texts = UNIT.findall(it.text) if it.kind == "string" else None
            units += [Node("string", one) for one in texts] if texts else [it]
        order = units if count > 0 else units[::-1]
        left, number = abs(count), 0
        while left > 0 and number < len(order):
            length = self.length(order[number])
            if length is None or length > left:
                return None
            left, number = left - length, number + 1
        at = number if count > 0 else len(units) - number
        if left or not 0 < at < len(units):
            return None
        return Node("cat", parts=units[:at]), Node("cat", parts=units[at:])


def ranges(members):
    """Bytes in rising order as items of a bracket expression."""
    start = 0
    for i, byte in enumerate(members):
        if i + 1 < len(members) and members[i + 1] == byte + 1:
            continue
        first, last = members[start], byte
        start = i + 1
        if last - first < 2:
            yield "".join(map(shown, range(first, last + 1)))
        else:
            yield f"{shown(first)}-{shown(last)}"


def shown(byte):
    return chr(byte) if chr(byte).isascii() and chr(byte).isalnum() else f"\\{byte:03o}"
