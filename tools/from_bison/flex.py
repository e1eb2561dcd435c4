"""Reads a flex file: its definitions and its rules, and what lytab has for each."""
import re

from .actions import CONDITIONAL, READS, YYLESS, Actions
from .names import plain
from .patterns import NAME, PIECE, WHOLE, Node, Pattern, Reader, Writer
from .text import C_COMMENT, C_PIECE, CHANGE, Notes, Text, Unreadable, without_comments

NOT_DEFINED = re.compile(
    r"%\{[^\n]*%\}[ \t]*\n|%\{.*?\n[ \t]*%\}[^\n]*\n?|[ \t][^\n]*\n|\r?\n|/\*.*?\*/[^\n]*\n?|//[^\n]*\n"
    r"|#(?:[^\\\n]|\\.)*\n", re.DOTALL)
DEFINITION = re.compile(r"([A-Za-z_][\w-]*)\s+(\S.*)", re.DOTALL)
CONDITIONS = re.compile(r"<([A-Za-z_0-9, \t\r\n*]+)>")
BETWEEN_RULES = re.compile(
    r"\s*\n|[ \t]*/\*.*?\*/[ \t\r]*\n|%\{[^\n]*%\}[ \t]*\n|%\{.*?\n[ \t]*%\}[^\n]*\n?|//[^\n]*\n", re.DOTALL)
PIECE_OR_NAME = re.compile(r"\{[A-Za-z_][\w-]*\}|" + PIECE.pattern, re.DOTALL)
CASELESS = re.compile(r"^%option\b[^\n]*\b(?:case-insensitive|caseless)\b", re.MULTILINE)
CALLED = re.compile(r"\b([A-Za-z_]\w*)\s*\(")
COMMENT = '"/*"([^*]|\\*+[^*/])*\\*+"/"'


class Scanner:
    """What is kept of a flex file."""

    def __init__(self, path, trees):
        self.file, self.notes = Text(path), Notes(path)
        self.definitions, self.rules, self.conditions = [], [], ["INITIAL"]
        self.actions = Actions(self.file.text, trees, self.conditions, self.notes)
        # (the option holds for the definitions before it too)
        self.writer = Writer({}, bool(CASELESS.search(self.file.text.split("\n%%")[0])))
        # the texts of definitions that are written where they are used
        self.inlined = {}
        # what patterns return, by the patterns
        self.returned_for = {}

    def read(self):
        self.read_definitions()
        self.read_rules([])
        return self

    def rest_of_line(self):
        return self.file.match(re.compile(r"[^\n]*"))[0]

    # ---- definitions

    def read_definitions(self):
        while not self.file.ends():
            line = self.file.line()
            if self.file.match(re.compile(r"%%[^\n]*\n?")):
                return
            if self.file.match(NOT_DEFINED):
                continue
            if self.file.match(re.compile(r"%top\s*(?=\{)")):
                self.file.braces()
                continue
            text = self.rest_of_line()
            self.file.match(re.compile(r"\n"))
            self.definition(text.rstrip(), line)
        raise self.file.error("there is no %%")

    def definition(self, text, line):
        named = re.match(r"%([sSxX])\w*\s+(.*)", text)
        if named:
            names = re.sub(C_COMMENT, "", named[2]).split()
            self.conditions += names
            self.definitions.append(f"%{named[1].lower()} {' '.join(map(plain, names))}")
        elif text.startswith("%"):
            if CASELESS.match(text):
                self.notes.add(line, f"both cases of letters are written out: {text}")
            else:
                self.notes.add(line, f"{text.split()[0]} is dropped: {text}")
        else:
            named = DEFINITION.match(text)
            if not named:
                raise Unreadable(f"{self.file.path}:{line}: not a definition: {text!r}")
            self.pattern_definition(named[1], WHOLE.match(named[2])[0], line)

    def pattern_definition(self, name, text, line):
        """A named pattern. One that isn't a part by itself is written where it is used."""
        try:
            pattern = Reader(self.with_inlined(text)).pattern()
            self.check_names(pattern)
        except Unreadable as why:
            if "parenthesis" in str(why):
                self.inlined[name] = f"({text})"
                self.notes.add(line, f"the definition {name} is written where it is used: {why}")
            else:
                self.notes.add(line, f"the definition {name} is dropped: {why}", CHANGE)
            return
        if pattern.has_anchor():
            self.inlined[name] = text
            self.notes.add(line, f"the definition {name} is written where it is used: it has ^, $ or /")
        elif name not in self.writer.definitions:
            self.writer.definitions[name] = pattern.main
            self.definitions.append(f"{plain(name)} {self.writer.text(pattern.main)}")

    def with_inlined(self, text):
        """A pattern with the texts of the definitions that are written where they are used."""
        if not self.inlined:
            return text

        def text_of(piece):
            named = NAME.fullmatch(piece)
            return self.inlined.get(named[1], piece) if named else piece

        return "".join(map(text_of, PIECE_OR_NAME.findall(text)))

    def check_names(self, pattern):
        """Rejects a pattern with a name that has no definition."""
        def names(node):
            return [node.text] if node.kind == "name" else [it for part in node.parts for it in names(part)]

        for it in names(pattern.main) + (names(pattern.trailing) if pattern.trailing else []):
            if it not in self.writer.definitions:
                raise Unreadable(f"{{{it}}} has no definition here")

    # ---- rules

    def read_rules(self, scope):
        """The rules up to the end of the part, or to the brace that closes a scope of conditions."""
        while not self.file.ends():
            line = self.file.line()
            if self.file.match(re.compile(r"%%")):
                return
            if self.file.match(BETWEEN_RULES):
                continue
            if scope and self.file.match(re.compile(r"[ \t]*\}[^\n]*\n?")):
                return
            if self.file.match(re.compile(r"[ \t]+")):
                if not scope:
                    self.rest_of_line()
                    continue
            self.rule(scope, line)
        if scope:
            raise self.file.error("a scope of conditions that isn't closed")

    def rule(self, scope, line):
        here = list(scope)
        found = self.file.match(CONDITIONS)
        if found:
            names = [it.strip() for it in found[1].split(",")]
            here += self.conditions if "*" in names else names
        if found and self.file.match(re.compile(r"\s*\{[ \t]*(?:/\*.*?\*/[ \t\r]*)?\n")):
            self.read_rules(list(dict.fromkeys(here)))
            return
        if self.file.match(re.compile(r"<<EOF>>")):
            self.notes.add(line, "a rule for <<EOF>> is dropped")
            self.end_bars(self.action_code(), line)
            return
        text = self.file.match(WHOLE)[0]
        code = self.action_code()
        try:
            pattern = Reader(self.with_inlined(text)).pattern()
            self.check_names(pattern)
            shown, is_known = self.shown(pattern, "" if code == "|" else without_comments(code), line)
        except Unreadable as why:
            self.notes.add(line, f"a rule is dropped: {why}", CHANGE)
            self.end_bars(code, line)
            return
        action = "|" if code == "|" else self.actions.read(code, line, is_known)
        returned = re.search(r"return (\w+);", action)
        if returned:
            self.returned_for.setdefault(shown, returned[1])
        before = f"<{','.join(dict.fromkeys(plain(it) for it in here))}>" if here else ""
        self.rules.append(f"{before}{shown}  {action}")

    def end_bars(self, code, line):
        """Gives the rules before a dropped one, which have its action, this action."""
        if code == "|" or not (self.rules and self.rules[-1].endswith("  |")):
            return
        action = self.actions.read(code, line)
        at = len(self.rules) - 1
        while at >= 0 and self.rules[at].endswith("  |"):
            self.rules[at] = self.rules[at][:-1] + action
            at -= 1

    def shown(self, pattern, code, line):
        """The pattern as lytab has it, by what the action does with the match, and whether it has that."""
        code = self.actions.macros.expand(code)
        comment = self.comment(pattern, code, line)
        if comment:
            return comment, True
        less = self.less(pattern, code, line)
        return self.writer.pattern(self.trailing(less, line)), less is not pattern

    def comment(self, pattern, code, line):
        """The pattern of a comment whose rest the action reads by `input()`, or by a function that does; None if it
        isn't one."""
        opens = "".join(it.text.replace("\\", "") for it in ([pattern.main] if pattern.main.kind != "cat" else
                                                             pattern.main.parts) if it.kind in ("string", "byte"))
        if pattern.main.kind == "name" and pattern.main.text in self.writer.definitions:
            return self.comment(Pattern(self.writer.definitions[pattern.main.text], None, False, False), code, line)
        if opens not in ("/*", "//") or not self.reads(code):
            if self.reads(code, by_functions=False):
                self.notes.add(line, "input() is dropped: what it reads isn't part of the match here", CHANGE)
            return None
        self.notes.add(line, "the pattern of the whole comment is written for its input()")
        return COMMENT if opens == "/*" else '"//"[^\\n]*'

    def reads(self, code, by_functions=True):
        """Whether code calls `input()`, or a function of the file that does."""
        if READS.search(code):
            return True
        for name in set(CALLED.findall(code)) if by_functions else ():
            for found in re.finditer(rf"\b{name}\s*\([^(){{;]*\)\s*(?=\{{)", self.file.text):
                if READS.search(body_at(self.file, found.end())):
                    return True
        return False

    def less(self, pattern, code, line):
        """The pattern with the end that `yyless()` gives back as its trailing context."""
        found = YYLESS.search(code)
        if not found or CONDITIONAL.search(code) or pattern.has_anchor():
            return pattern
        parts = self.writer.split(pattern.main, int(found[1]) if found[1] else -int(found[2]))
        if parts is None:
            return pattern
        self.notes.add(line, "yyless() is written as a trailing context")
        return Pattern(parts[0], parts[1], pattern.at_start, pattern.at_end)

    def trailing(self, pattern, line):
        """The pattern with a trailing context that lytab accepts."""
        writer = self.writer
        if pattern.trailing is None or writer.length(pattern.trailing) is not None:
            return self.with_text(pattern)
        if writer.length(pattern.main) is None:
            least = writer.least_front(pattern.trailing)
            if least is not None and writer.length(least) is not None:
                self.notes.add(line, f"the trailing context is shortened to {writer.text(least)}")
            elif least is not None:
                what = "both sides of the trailing context have several lengths: the right side is dropped"
                self.notes.add(line, f"{what}: {writer.text(pattern.trailing)}", CHANGE)
                least = None
            pattern = Pattern(pattern.main, least, pattern.at_start, pattern.at_end)
        return self.with_text(pattern)

    def with_text(self, pattern):
        """The pattern with at least a byte before its trailing context."""
        main = pattern.main
        if not (pattern.trailing or pattern.at_end) or not self.writer.may_be_empty(main):
            return pattern
        if main.kind == "repeat" and main.text == "*":
            main = Node("repeat", "+", main.parts, None, 1)
            return Pattern(main, pattern.trailing, pattern.at_start, pattern.at_end)
        raise Unreadable("a trailing context after an empty match")

    def action_code(self):
        """The C code of an action, or `|`."""
        self.file.match(re.compile(r"[ \t]+"))
        if self.file.match(re.compile(r"\|[ \t\r]*(?=\n|\Z)")):
            return "|"
        code = ""
        while not self.file.ends() and self.file.text[self.file.at] != "\n":
            if self.file.starts("{"):
                code += "{" + self.file.braces() + "}"
            elif self.file.match(re.compile(r"%\{")):
                code += self.file.match(re.compile(r".*?%\}", re.DOTALL))[0][:-2]
            else:
                code += self.file.match(C_PIECE)[0]
        return code

    def written(self):
        return "\n".join([*self.definitions, "%%", *self.rules]) + "\n"


def body_at(file, at):
    """The code between braces at an offset; nothing if they aren't closed."""
    before = file.at
    file.at = at
    try:
        return file.braces()
    except Unreadable:
        return ""
    finally:
        file.at = before
