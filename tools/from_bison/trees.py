"""The yacc file with a node for each rule, of a bison grammar and what the scanner returns for it."""
import re

from .bison import BYTE_0, Action
from .names import Names
from .text import CHANGE, HARMLESS, without_comments

PASSES = re.compile(r"\s*\$\$\s*=\s*(?:\(\s*[\w\s*]+\)\s*)?\$(?:<\w+>)?(\d+)\s*;\s*\Z")
PASSES_NAMED = re.compile(r"\s*\$(?:\$|\w+)\s*=\s*\$(\w+|\[[^\]]+\])\s*;\s*\Z")
LETTER = re.compile(r"[A-Za-z0-9]")


def constructor(left):
    """The name of the nodes of a left side."""
    return "".join(part[:1].upper() + part[1:] for part in re.split(r"[_.-]+", left) if part) or "Node"


class Body:
    """A body without actions and ends of the input. `numbers` has, for each `$` number of the bison file, the number of
    the symbol, or None; `references` has the numbers by names; `actions` are the empty nonterminals for the actions
    within the rule, if they are kept."""

    def __init__(self, rule, line):
        self.left, self.line, self.symbols, self.numbers, self.references = rule.left, line, [], [], {}
        self.actions = []
        self.precedence = rule.precedence.word if rule.precedence else None
        self.action = rule.last_action()

    def add(self, symbol):
        self.symbols.append(symbol.word)
        self.numbers.append(len(self.symbols))
        self.references[symbol.word] = len(self.symbols)
        if symbol.reference:
            self.references[symbol.reference] = len(self.symbols)

    def add_action(self, name):
        """Adds an empty nonterminal for an action within the rule."""
        self.actions.append(name)
        self.symbols.append(name)
        self.numbers.append(len(self.symbols))

    def passed(self):
        """The number of the symbol whose value the action passes on; None if it does more."""
        code = without_comments(self.action.code) if self.action else ""
        by_number = PASSES.match(code)
        if by_number:
            return dict(enumerate(self.numbers, 1)).get(int(by_number[1]))
        by_name = PASSES_NAMED.match(code)
        return self.references.get(by_name[1].strip("[]")) if by_name else None


class Trees:
    """What a grammar becomes: its declarations, and its bodies without `error`."""

    def __init__(self, grammar, keeps_actions=False):
        self.grammar, self.names, self.notes = grammar, Names(grammar), grammar.notes
        self.keeps_actions, self.actions, self.on_line = keeps_actions, set(), {}
        self.lefts = {rule.left for rule in grammar.rules}
        self.tokens = {it.word for made in grammar.declarations for it in made.symbols if it.word not in grammar.ends}
        self.bodies = self.without_errors([self.body(rule) for rule in grammar.rules])
        self.note_declarations()

    def meant(self, word):
        """The token that a string is another name of; else the word itself."""
        return self.grammar.aliases.get(word, word)

    def note_declarations(self):
        for made in self.grammar.declarations:
            line = self.grammar.line_of(made)
            if made.kind == "%precedence":
                what = "%precedence is written %nonassoc"
                if self.grammar.may_tie(made):
                    what += ": of equal precedence, lytab reports a syntax error where bison shifts"
                self.notes.add(line, what, CHANGE if self.grammar.may_tie(made) else HARMLESS)
            for it in made.symbols:
                if it.word in self.grammar.ends:
                    self.notes.add(line, f"{it.word} is the end of the input, which lytab has built in")

    def start(self):
        """The start symbol."""
        return self.grammar.start.word if self.grammar.start else self.grammar.rules[0].left

    # ---- bodies

    def body(self, rule):
        """A body; None if it is dropped."""
        grammar, line = self.grammar, self.grammar.line_of(rule)
        body, ends = Body(rule, line), []
        for it in rule.parts:
            if isinstance(it, Action) and it is not body.action and self.keeps_actions and not it.is_predicate:
                body.add_action(self.action_name(it))
            elif isinstance(it, Action):
                if it is not body.action:
                    what = "a predicate is dropped" if it.is_predicate else "an action within a rule is dropped"
                    self.notes.add(grammar.line_of(it), what, CHANGE if it.is_predicate else HARMLESS)
                    body.numbers.append(None)
            elif self.meant(it.word) in grammar.ends or BYTE_0.fullmatch(it.word):
                ends.append(it)
                body.numbers.append(None)
            elif self.meant(it.word) == "error":
                self.notes.add(line, f"a rule of {rule.left} with error is dropped")
                return None
            else:
                body.add(it)
        if ends and rule.left != self.start() and sum(it.left == rule.left for it in grammar.rules) > 1:
            self.notes.add(line, f"a rule of {rule.left} with {ends[0].word}, the end of the input, is dropped", CHANGE)
            return None
        if ends:
            is_last = rule.left == self.start() and rule.symbols()[-1] is ends[0]
            what = f"{ends[0].word}, the end of the input, is left out of a rule of {rule.left}"
            self.notes.add(line, what, HARMLESS if is_last else CHANGE)
        return body

    def action_name(self, it):
        """A name for an action within a rule, by its line."""
        line = self.grammar.line_of(it)
        self.on_line[line] = self.on_line.get(line, 0) + 1
        name = self.names.new(f"action_{line}" + (f"_{self.on_line[line]}" if self.on_line[line] > 1 else ""))
        self.actions.add(name)
        self.names.given[name] = name
        self.notes.add(line, f"an action within a rule is the empty nonterminal {name}", HARMLESS)
        return name

    def without_errors(self, bodies):
        """The bodies that are left, without those that need a left side that has none left."""
        kept = [it for it in bodies if it]
        while True:
            gone = self.lefts - {it.left for it in kept}
            lost = [it for it in kept if gone & set(it.symbols)]
            if not lost:
                return kept
            for it in lost:
                self.notes.add(it.line, f"a rule of {it.left} is dropped: a symbol of it has no rule left", CHANGE)
            kept = [it for it in kept if it not in lost]

    # ---- names

    def take_names(self, returned_for):
        """Gives each string without another name the name that the scanner returns for exactly this string."""
        for body in self.bodies:
            for word in body.symbols:
                if word[0] != '"' or word in self.grammar.aliases or word in self.names.given:
                    continue
                new = returned_for.get(word)
                if new and new not in self.tokens | self.lefts and new not in self.names.given.values():
                    self.names.given[word] = new
                    self.names.used.add(new)
                self.notes.add(body.line, f"the string {word} is the token {self.names.of(word)}")

    def used(self):
        """The tokens of the bodies, by their names."""
        words = [word for body in self.bodies for word in body.symbols]
        return list(dict.fromkeys(self.names.of(it) for it in words if it not in self.lefts | self.actions))

    def is_punctuation(self, word):
        """Whether a token has one text, without letters and digits."""
        if word.startswith("'"):
            return True
        texts = [word] if word.startswith('"') else []
        texts += [alias for alias, name in self.grammar.aliases.items() if name == self.meant(word)]
        return bool(texts) and not LETTER.search(texts[0][1:-1])

    # ---- writing

    def action(self, name, body):
        """The action of a rule, as lytab has it."""
        parts = [i for i, word in enumerate(body.symbols, 1) if word not in self.actions]
        if body.action is None and len(parts) <= 1:
            return f"{{ $$ = ${parts[0]}; }}" if parts[:1] > [1] else ""
        passed = body.passed()
        if passed:
            return f"{{ $$ = ${passed}; }}"
        children = [i for i in parts if not self.is_punctuation(body.symbols[i - 1])]
        return f"{{ $$ = {name}({','.join(f'${i}' for i in children)}); }}"

    def declarations(self, returned):
        """The lines before the rules. What is used or returned without a declaration is declared."""
        lines, declared = [], set()
        for made in self.grammar.declarations:
            words = [it.word for it in made.symbols if it.word not in self.grammar.ends and it.word != "error"]
            words = [it for it in words if not BYTE_0.fullmatch(it)]
            names = [self.names.of(it) for it in words]
            declared.update(names)
            if names:
                lines.append(f"{made.kind.replace('%precedence', '%nonassoc')} {' '.join(names)}")
        wanted = [body.precedence for body in self.bodies if body.precedence and body.precedence[0] != "'"]
        wanted += [word for body in self.bodies for word in body.symbols if self.meant(word)[0] == '"']
        others = [it for it in [*map(self.names.of, wanted), *returned] if it not in declared and it[0] != "'"]
        if others:
            lines.append("%token " + " ".join(dict.fromkeys(others)))
        if self.grammar.start:
            lines.append(f"%start {self.names.of(self.grammar.start.word)}")
        elif self.bodies and self.bodies[0].actions:
            # (the rule of that action comes first)
            lines.append(f"%start {self.names.of(self.start())}")
        return lines

    def written(self, returned):
        """The file for lytab."""
        lines = self.declarations(returned) + ["%%"]
        counts = {}
        for body in self.bodies:
            counts[body.left] = counts.get(body.left, 0) + 1
        numbers, last = {}, None
        for body in self.bodies:
            left = body.left
            numbers[left] = numbers.get(left, 0) + 1
            is_new = left != last or body.actions
            head = f"{self.names.of(left)} :" if is_new else "    |"
            if is_new and last is not None:
                lines.append("    ;")
            # (as bison has it, the rule of an action precedes the body)
            lines += [f"{it} : ;" for it in body.actions]
            name = constructor(left)
            name += ("_" if name[-1:].isdigit() else "") + str(numbers[left]) if counts[left] > 1 else ""
            parts = [*map(self.names.of, body.symbols)]
            parts += [f"%prec {self.names.of(body.precedence)}"] if body.precedence else []
            lines.append(" ".join([head, *parts, self.action(name, body)]).rstrip())
            last = left
        return "\n".join(lines) + "\n    ;\n"
