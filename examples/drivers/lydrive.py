#!/usr/bin/env python3
"""Answers a text by a table file of lytab, as `lytab run` does: a driver of its own, written from docs/table-file.md,
docs/trees.md and docs/texts-and-faults.md alone. It needs nothing but Python, and is some two hundred times slower.

    lydrive.py TABLES [TEXT] [--json] [--places]

Nothing of it is proved. Of the faults of a table file it looks for 80 to 83 alone: a file that isn't known to be good
is for `lytab check` first, since a parser by forged tables may run for ever.
"""
import json
import sys
from bisect import bisect_right


class TableFault(Exception):
    """The table file is refused (80 to 83), or at fault on the text (90)."""


class Fields:
    """The fields of a table file, one behind another."""

    def __init__(self, file):
        self.file, self.at = file, 0
        self.number = self.u16

    def take(self, count):
        if self.at + count > len(self.file):
            raise TableFault(82)
        self.at += count
        return self.file[self.at - count : self.at]

    def u8(self):
        return self.take(1)[0]

    def u16(self):
        return int.from_bytes(self.take(2), "big")

    def u32(self):
        return int.from_bytes(self.take(4), "big")

    def text(self):
        return self.take(self.u16())

    def list(self, item):
        """A count, and so many items."""
        return [item() for _ in range(self.number())]


class Comb:
    """Rows of entries, laid over one another."""

    def __init__(self, fields, rows):
        self.bases = [fields.u32() for _ in range(rows)]
        slots = fields.u32()
        self.entries = [fields.number() for _ in range(slots)]
        self.owners = [fields.number() for _ in range(slots)]

    def entry(self, row, column):
        slot = self.bases[row] + column
        return self.entries[slot] if slot < len(self.owners) and self.owners[slot] == row else None


class Tables:
    """What a table file says."""

    def __init__(self, file):
        fields = Fields(file)
        if file[:4] != b"LYTB"[: len(file[:4])]:
            raise TableFault(80)
        fields.take(4)
        version = fields.u16()
        if version not in (1, 2):
            raise TableFault(81)
        bits = 16 if version == 1 else 32
        number = fields.number = fields.u16 if version == 1 else fields.u32
        self.none, self.shift, self.reduce = (1 << bits) - 1, 1 << (bits - 1), 1 << (bits - 2)
        terminals, _nonterminals = number(), number()
        self.names = [fields.text() for _ in range(terminals)]
        self.literals = [number() for _ in range(256)]
        self.scan_rules = fields.list(lambda: (fields.u8(), number(), number(), fields.u8(), number()))
        self.conditions = fields.list(lambda: (number(), number()))
        number()
        self.classes = list(fields.take(256))
        self.accepted = fields.list(number)
        self.scan_rows = Comb(fields, len(self.accepted))
        self.rules = fields.list(lambda: self.rule(fields))
        self.defaults = fields.list(number)
        self.actions = Comb(fields, len(self.defaults))
        self.gotos = Comb(fields, len(self.defaults))
        if fields.at != len(file):
            raise TableFault(83)

    @staticmethod
    def rule(fields):
        """A rule: its left side, the length of its body, the kind of its tree, the constructor, and the places."""
        left, length, kind, name = fields.number(), fields.u8(), fields.u8(), fields.text()
        return left, length, kind, name, [fields.u8() for _ in range(fields.u8())]

    def action(self, state, terminal):
        """What is done in a state before a terminal, as the number of an entry."""
        entry = self.actions.entry(state, terminal)
        if entry is not None:
            return entry
        return self.reduce + self.defaults[state] if self.defaults[state] else 0


def tokens(tables, text):
    """The tokens of a text, as (terminal, start, end); where no rule matches a last one (None, byte, byte)."""
    at, condition, at_line = 0, 0, True
    while at < len(text):
        state, end, best = tables.conditions[condition][at_line], at, None
        state = None if state == tables.none else state
        while state is not None and end < len(text):
            state = tables.scan_rows.entry(state, tables.classes[text[end]])
            end += 1
            if state is not None and tables.accepted[state]:
                best = tables.accepted[state] - 1, end - at
        if best is None:
            yield None, at, at
            return
        returned, terminal, begin, cut, length = tables.scan_rules[best[0]]
        taken = (best[1], length, best[1] - length)[cut]
        if not 0 < taken <= best[1]:
            raise TableFault(90)
        if returned:
            yield (terminal if returned == 1 else tables.literals[text[at]]), at, at + taken
        if begin != tables.none:
            condition = begin
        at += taken
        at_line = text[at - 1] == 10


def expected(tables, states):
    """The terminals that would be read, or accepted with, on these states."""
    return [terminal for terminal in range(len(tables.names)) if is_expected(tables, list(states), terminal)]


def is_expected(tables, states, terminal):
    while True:
        action = tables.action(states[-1], terminal)
        if action >= tables.shift:
            return True
        if action < tables.reduce:
            return action == 1 and len(states) > 1
        left, length, *_ = tables.rules[action - tables.reduce - 1]
        if length >= len(states):
            return False
        del states[len(states) - length :]
        goto = tables.gotos.entry(states[-1], left)
        if goto is None:
            return False
        states.append(goto)


class Part:
    """A part of a derivation: a token, or a rule over the parts of its body; and from where to where its tokens stand,
    if it has any."""

    def __init__(self, terminal=None, rule=None, body=(), extent=None):
        self.terminal, self.rule, self.body, self.extent = terminal, rule, body, extent


class Refused(Exception):
    """A text has no tree: its token of this number is refused, or the end (terminal 0); or no rule matches (number
    0)."""

    def __init__(self, number, terminal, start, end, terminals=()):
        super().__init__()
        self.number, self.terminal, self.start, self.end, self.terminals = number, terminal, start, end, terminals


def derivation(tables, text):
    """The derivation of a text, and where the last token in front of it ends."""
    states, parts, number = [0], [], 0
    for terminal, start, end in tokens(tables, text):
        if terminal is None:
            raise Refused(0, None, start, end)
        number += 1
        feed(tables, states, parts, number, terminal, start, end)
    feed(tables, states, parts, number + 1, 0, len(text), len(text))
    return parts[-1], max((part.extent[1] for part in parts[:-1] if part.extent), default=0)


def feed(tables, states, parts, number, terminal, start, end):
    """Reads a token, or accepts at the end. The stack before the token is the first `kept` states and then, the last of
    them first, those that reductions on it have popped: to copy all of it for each token would take too long."""
    kept, popped = len(states), []
    while True:
        action = tables.action(states[-1], terminal)
        if action >= tables.shift:
            states.append(action - tables.shift)
            parts.append(Part(terminal=terminal, extent=(start, end)))
            return
        if action == 1:
            if not parts:
                raise TableFault(90)
            return
        if action == 0:
            raise Refused(number, terminal, start, end, expected(tables, states[:kept] + popped[::-1]))
        rule = action - tables.reduce - 1
        left, length, *_ = tables.rules[rule]
        if length > len(parts):
            raise TableFault(90)
        body, left_over = parts[len(parts) - length :], len(states) - length
        if left_over < kept:
            popped += reversed(states[left_over:kept])
            kept = left_over
        del parts[len(parts) - length :], states[left_over:]
        extents = [part.extent for part in body if part.extent]
        extent = (extents[0][0], extents[-1][1]) if extents else None
        goto = tables.gotos.entry(states[-1], left)
        if goto is None:
            raise TableFault(90)
        states.append(goto)
        parts.append(Part(rule=rule, body=body, extent=extent))


def value(tables, part, last):
    """The part that the actions hand on in a part's place, and the byte where it begins at the earliest: where the last
    token before it ends, or where the part around it begins, if that is later. None is nothing."""
    while part.rule is not None and tables.rules[part.rule][2] != 2:
        _, _, kind, _, places = tables.rules[part.rule]
        if kind == 0:
            return None, last
        part, last = child(part, places[0], last)
    return part, last


def child(part, place, last):
    """The part at a place of a body, and where the last token before it ends."""
    last = part.extent[0] if part.extent else last
    for before in part.body[: place - 1]:
        last = before.extent[1] if before.extent else last
    return part.body[place - 1], last


class Writer:
    """Writes an answer: by these functions, what stands for nothing, for a token, and before and behind a node's
    parts."""

    def __init__(self, tables, text):
        self.tables, self.text = tables, text

    def tree(self, part, last):
        """The tree of a derivation, without recursion: trees are deep."""
        written, todo = [], [(part, last)]
        while todo:
            item = todo.pop()
            if isinstance(item, str):
                written.append(item)
                continue
            part, last = value(self.tables, *item)
            if part is None:
                written.append(self.NOTHING)
            elif part.rule is None:
                written.append(self.token(part.terminal, *part.extent))
            else:
                written.append(self.opens(part, last))
                todo.append(self.CLOSES)
                places = self.tables.rules[part.rule][4]
                for index in range(len(places), 0, -1):
                    todo.append(child(part, places[index - 1], last))
                    if index > 1:
                        todo.append(",")
        return "".join(written)


class Plain(Writer):
    """Plain text. A byte stands for the character of its number."""

    NOTHING, CLOSES = "()", ")"

    def token(self, terminal, start, end):
        return f'{name(self.tables.names[terminal])}"{escaped(self.text[start:end])}"'

    def opens(self, part, last):
        return name(self.tables.rules[part.rule][3]) + "("

    def refused(self, why):
        if not why.number:
            return f"no rule matches at byte {why.start}"
        said = f"end, token {why.number}, byte {why.start}" if why.terminal == 0 else \
            f"token {why.number}, byte {why.start}: {self.token(why.terminal, why.start, why.end)}"
        names = "".join(" " + name(self.tables.names[terminal]) for terminal in why.terminals)
        return f"syntax error at {said}\nexpected:{names}"


class Json(Writer):
    """A line of JSON, with places if they are asked for."""

    NOTHING, CLOSES = "null", "]}"

    def __init__(self, tables, text, has_places):
        super().__init__(tables, text)
        self.has_places = has_places
        self.lines = [0] + [at + 1 for at, byte in enumerate(text) if byte == 10]

    def location(self, at):
        line = bisect_right(self.lines, at)
        return [at, line, at - self.lines[line - 1] + 1]

    def places(self, start, end):
        return {"start": self.location(start), "end": self.location(end)} if self.has_places else {}

    def content(self, start, end):
        try:
            return {"text": self.text[start:end].decode("utf-8")}
        except UnicodeDecodeError:
            return {"bytes": list(self.text[start:end])}

    def token(self, terminal, start, end):
        of = name(self.tables.names[terminal])
        return written({"token": of, **self.places(start, end), **self.content(start, end)})

    def opens(self, part, last):
        start, end = part.extent or (last, last)
        node = {"node": name(self.tables.rules[part.rule][3]), **self.places(start, end), "children": []}
        return written(node)[:-2]

    def refused(self, why):
        if not why.number:
            return written({"error": "unmatched", "byte": why.start, **self.places(why.start, why.end)})
        said = {"error": "refused", "number": why.number, "byte": why.start, **self.places(why.start, why.end)}
        said["token"] = name(self.tables.names[why.terminal])
        if why.terminal:
            said.update(self.content(why.start, why.end))
        return written({**said, "expected": [name(self.tables.names[terminal]) for terminal in why.terminals]})


def name(name_):
    """A name: each byte is the character of its number."""
    return name_.decode("latin-1")


def written(value_):
    return json.dumps(value_, ensure_ascii=False, separators=(",", ":"))


def escaped(text):
    """Bytes between double quotes, in plain text."""
    meant = {9: "\\t", 10: "\\n", 34: '\\"', 92: "\\\\"}
    return "".join(meant.get(byte) or (chr(byte) if 32 <= byte <= 126 else f"\\x{byte:02x}") for byte in text)


def answer(tables, text, is_json=False, has_places=False):
    """The answer to a text, as bytes, and whether it is a tree."""
    is_json = is_json or has_places
    writer = Json(tables, text, has_places) if is_json else Plain(tables, text)
    try:
        said, is_tree = writer.tree(*derivation(tables, text)), True
    except Refused as why:
        said, is_tree = writer.refused(why), False
    return (said + "\n").encode("utf-8" if is_json else "latin-1"), is_tree


def main(words):
    paths = [word for word in words if not word.startswith("--")]
    with open(paths[0], "rb") as file:
        tables = file.read()
    if paths[1:]:
        with open(paths[1], "rb") as file:
            text = file.read()
    else:
        text = sys.stdin.buffer.read()
    try:
        said, is_tree = answer(Tables(tables), text, "--json" in words, "--places" in words)
    except TableFault as fault:
        sys.stderr.write(f"lydrive: tables: fault {fault}\n")
        return 2
    sys.stdout.buffer.write(said)
    return 0 if is_tree else 1


if __name__ == "__main__":
    sys.exit(main(sys.argv[1:]))
