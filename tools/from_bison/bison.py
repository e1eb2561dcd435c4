"""Reads a bison file: its declarations, and its rules with their symbols and actions, each with its offset."""
import re

from .text import CHANGE, C_PIECE, Notes, Text

GAP = re.compile(r"(?:[\s,]|/\*(?:[^*]|\*(?!/))*\*/|//[^\n]*|^#line[^\n]*)+", re.MULTILINE)
NAME = re.compile(r"[A-Za-z_.][A-Za-z0-9_.-]*")
NUMBER = re.compile(r"0[xX][0-9a-fA-F]+|[0-9]+")
STRING = re.compile(r'(?:_\s*\(\s*)?("(?:\\.|[^"\\\n])*")(?:\s*\))?')
LITERAL = re.compile(r"'(?:\\[0-7]{1,3}|\\x[0-9a-fA-F]+|\\.|[^'\\\n])'", re.DOTALL)
REFERENCE = re.compile(r"\[\s*([A-Za-z_.][A-Za-z0-9_.-]*)\s*\]")
DIRECTIVE = re.compile(r"%[A-Za-z_][A-Za-z0-9_-]*")
MARK = re.compile(r"%%")
SEMICOLON = re.compile(r";")
# a left side, with the colon after it
LEFT_SIDE = re.compile(rf"({NAME.pattern})(?:{GAP.pattern})?(?:{REFERENCE.pattern}(?:{GAP.pattern})?)?:(?!:)",
                       re.MULTILINE)
OPERAND = re.compile(rf'"(?:\\.|[^"\\\n])*"|{LITERAL.pattern}|[\w.-]+|.', re.DOTALL)
PREFIX = re.compile(r"\s*api\.token\.prefix\s*(?=\{)")
TABLES = re.compile(r"\s*lr\.type\s+[\"{]?\s*([\w().-]+)")
PREDICATE = re.compile(r"%\?\s*(?=\{)")
OF_GLR = re.compile(r"%dprec\s+\d+|%merge\s*<[^>]*>|%expect(?:-rr)?\s+\d+")
# what only a template has where a word of the grammar is expected
TEMPLATE = re.compile(r"#[^\n]*|@\w+@|[A-Z_][A-Z0-9_]*\(")
TOKEN_KINDS = {"%token": "%token", "%term": "%token", "%left": "%left", "%<": "%left", "%right": "%right",
               "%>": "%right", "%nonassoc": "%nonassoc", "%binary": "%nonassoc", "%precedence": "%precedence"}
# directives without which a grammar has the same automaton and trees, and that are too common for a note
SILENT = ("%type", "%nterm", "%union", "%code")
BYTE_0 = re.compile(r"'\\(?:0{1,3}|x0+)'")


class Symbol:
    """A symbol as the file has it: a name, a literal or a string; its offset, and the name in brackets after it."""

    def __init__(self, word, at):
        self.word, self.at, self.reference = word, at, None


class Action:
    """An action: its code, without the braces, and its offset. A predicate is one too."""

    def __init__(self, code, at, is_predicate=False):
        self.code, self.at, self.is_predicate, self.reference = code, at, is_predicate, None


class Declaration:
    """A declaration of tokens, and whether it is among the rules."""

    def __init__(self, kind, at, in_rules):
        self.kind, self.at, self.in_rules, self.symbols = kind, at, in_rules, []


class Rule:
    """A body with its left side: its parts in order, and the symbol of its %prec. It begins at the left side, or at
    the bar before it."""

    def __init__(self, left, at, is_first):
        self.left, self.at, self.is_first, self.parts, self.precedence = left, at, is_first, [], None

    def middle_actions(self):
        """The actions that a part follows. (A %prec doesn't count.)"""
        return [it for it in self.parts[:-1] if isinstance(it, Action)]

    def last_action(self):
        return self.parts[-1] if self.parts and isinstance(self.parts[-1], Action) else None

    def symbols(self):
        return [it for it in self.parts if isinstance(it, Symbol)]


class Grammar:
    """What is read of a bison file."""

    def __init__(self, path):
        self.file, self.notes = Text(path), Notes(path)
        self.declarations, self.rules, self.start, self.start_at = [], [], None, None
        # other names of tokens by their strings, the tokens of number 0, and what begins the tokens' names in C
        self.aliases, self.ends, self.prefix = {}, set(), ""
        # the numbers of %expect and %expect-rr, each with its line
        self.expected = {}
        self.in_rules, self.mark_at = False, None

    def read(self):
        self.read_declarations()
        self.read_rules()
        return self

    # ---- words

    def gap(self):
        self.file.match(GAP)

    def wrong(self, what):
        """An error about the position."""
        rest = self.file.text[self.file.at :].split("\n")[0].strip()
        found = TEMPLATE.match(rest)
        if found:
            what = f"the file is a template: its build replaces {found[0][:40]!r}, so use the result of that"
            return self.file.error(what)
        return self.file.error(f"{what}: {rest[:20]!r}")

    def symbol(self):
        """The symbol at the position; None if there is none."""
        self.gap()
        start = self.file.at
        for pattern, group in ((LITERAL, 0), (STRING, 1), (NAME, 0)):
            found = self.file.match(pattern)
            if found:
                return Symbol(found[group], start)
        return None

    def tag(self):
        """Moves after a tag, in which `<` and `>` are balanced and `->` may occur; tells whether there is one."""
        if not self.file.starts("<"):
            return False
        at, depth, text = self.file.at, 0, self.file.text
        while at < len(text) and text[at] != "\n":
            depth += (text[at] == "<") - (text[at] == ">" and text[at - 1] != "-")
            at += 1
            if depth == 0:
                self.file.at = at
                return True
        raise self.wrong("a tag that isn't closed")

    def block(self):
        """Moves after a block from %{ to %}; tells whether there is one."""
        if not self.file.starts("%{"):
            return False
        start = self.file.at
        self.file.at += 2
        while not self.file.ends():
            if self.file.starts("%}"):
                self.file.at += 2
                return True
            self.file.match(C_PIECE)
        # (a quote that isn't one, in a comment of another language: the block ends at the first mark)
        end = self.file.text.find("%}", start)
        if end < 0:
            raise self.file.error("a block %{ that isn't closed", start)
        self.file.at = end + 2
        return True

    # ---- declarations

    def read_declarations(self):
        while True:
            self.gap()
            if self.file.starts("%%"):
                self.mark_at = self.file.at
                self.file.at += 2
                return
            if self.file.ends():
                raise self.file.error("there is no %%")
            if self.block() or self.file.match(SEMICOLON):
                continue
            self.declaration("not a declaration")

    def declaration(self, wrong):
        """A directive and what belongs to it."""
        start = self.file.at
        line = self.file.line()
        word = self.file.match(re.compile(r"%[<>]")) or self.file.match(DIRECTIVE)
        if not word:
            raise self.wrong(wrong)
        word = word[0].replace("_", "-")
        if word in TOKEN_KINDS:
            self.token_declaration(TOKEN_KINDS[word], start, line)
        elif word == "%start":
            self.start_at, self.start = start, self.symbol()
        elif word in ("%expect", "%expect-rr"):
            self.gap()
            number = self.file.match(NUMBER)
            self.expected[word] = (int(number[0], 0) if number else 0, line)
            self.notes.add(line, f"{word} is dropped")
        elif word == "%define" and self.file.match(PREFIX):
            self.gap()
            self.prefix = self.file.braces().strip()
        else:
            tables = TABLES.match(self.file.text, self.file.at) if word == "%define" else None
            if tables and tables[1].lower() != "lalr":
                self.notes.add(line, f"lytab makes the tables of LALR(1), not of {tables[1]}", CHANGE)
            elif word not in SILENT:
                self.notes.add(line, f"{word} is dropped")
            self.pass_operands()

    def pass_operands(self):
        """Moves after the operands of a directive: to the next directive, mark, or rule."""
        while True:
            self.gap()
            if self.file.ends() or self.file.starts(("%", ";", "|")):
                return
            if self.in_rules and LEFT_SIDE.match(self.file.text, self.file.at):
                return
            if self.file.starts("{"):
                self.file.braces()
            elif self.file.starts(("#", "@")):
                raise self.wrong("not a declaration")
            elif not (self.file.starts("<") and self.tag()):
                self.file.match(OPERAND)

    def token_declaration(self, kind, start, line):
        """The symbols of a declaration, with their numbers and their other names."""
        made = Declaration(kind, start, self.in_rules)
        while True:
            self.gap()
            if self.tag():
                continue
            number = self.file.match(NUMBER)
            if number:
                if made.symbols and int(number[0], 0) == 0:
                    self.ends.add(made.symbols[-1].word)
                continue
            if self.in_rules and LEFT_SIDE.match(self.file.text, self.file.at):
                break
            found = self.file.match(STRING) if kind == "%token" and made.symbols else None
            if found:
                self.aliases[found[1]] = made.symbols[-1].word
                continue
            symbol = self.symbol()
            if symbol is None:
                break
            made.symbols.append(symbol)
        self.declarations.append(made)

    # ---- rules

    def read_rules(self):
        self.in_rules, left = True, None
        while True:
            self.gap()
            start = self.file.at
            if self.file.ends() or self.file.match(MARK):
                return
            if self.file.match(SEMICOLON) or self.block():
                continue
            if self.file.starts("|"):
                if left is None:
                    raise self.file.error("`|` before the first rule")
                self.file.at += 1
                self.body(Rule(left, start, False))
            elif self.file.starts("%"):
                self.declaration("not a rule")
            else:
                found = self.file.match(LEFT_SIDE)
                if not found:
                    raise self.wrong("not a rule")
                left = found[1]
                rule = Rule(left, start, True)
                rule.reference = found[2]
                self.body(rule)

    def body(self, rule):
        """The parts of a body, up to the `|`, the `;`, the directive or the left side after it."""
        self.rules.append(rule)
        while True:
            self.gap()
            here = self.file.at
            if self.file.ends() or self.file.text[here] in "|;" or self.file.starts("%%"):
                return
            if LEFT_SIDE.match(self.file.text, here):
                return
            if self.file.match(PREDICATE):
                rule.parts.append(Action(self.file.braces(), here, True))
            elif self.file.starts("{"):
                rule.parts.append(Action(self.file.braces(), here))
            elif self.file.starts("<"):
                self.tag()
            elif self.file.match(re.compile(r"%prec\b")):
                rule.precedence = self.symbol()
                if rule.precedence is None:
                    raise self.wrong("no symbol after %prec")
            elif self.file.match(re.compile(r"%empty\b")) or self.block():
                continue
            elif self.file.match(OF_GLR):
                self.notes.add(self.file.line(here), "%dprec, %merge and %expect are dropped")
            elif self.file.starts("%"):
                return
            elif rule.parts and self.file.starts("["):
                found = self.file.match(REFERENCE)
                if not found:
                    raise self.wrong("not a symbol")
                rule.parts[-1].reference = found[1]
            else:
                symbol = self.symbol()
                if symbol is None:
                    raise self.wrong("not a symbol")
                rule.parts.append(symbol)

    def may_tie(self, made):
        """Whether a rule and a token after it may both have the precedence of a declaration."""
        level = {self.aliases.get(it.word, it.word) for it in made.symbols}
        bodies = [[self.aliases.get(it.word, it.word) for it in rule.symbols()] for rule in self.rules]
        lefts = {rule.left for rule in self.rules}
        lasts = [[it for it in body if it not in lefts][-1:] for body in bodies]
        given = [[self.aliases.get(rule.precedence.word, rule.precedence.word)] if rule.precedence else last
                 for rule, last in zip(self.rules, lasts)]
        return any(level & set(it) for it in given) and any(level & set(it) for it in bodies)

    def line_of(self, it):
        """The line of a symbol, an action, a declaration or a rule."""
        return self.file.line(it.at)
