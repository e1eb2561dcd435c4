"""A bison grammar alone, as a yacc file for lytab with the same automaton, each word on its line and, if there is room,
in its column."""
from .bison import BYTE_0, Action
from .names import Names
from .text import CHANGE


class Page:
    """Lines that are written from the first to the last, with the places of their words in the bison file."""

    def __init__(self):
        self.lines, self.places = [""], {}

    def put(self, word, place, shown=None):
        """Writes a word at its line and column, or after what is there already. `shown` is the place that messages
        about it name, if it is another one."""
        line, column = place
        self.lines += [""] * (line - len(self.lines))
        now = self.lines[-1]
        blanks = max(column - 1 - len(now), 1) if len(self.lines) == line and column - 1 > len(now) else bool(now)
        self.lines[-1] = now + " " * blanks + word
        self.places[(len(self.lines), len(now) + blanks + 1)] = shown or place

    def text(self):
        return "\n".join(self.lines) + "\n"


class Alone:
    """The yacc file of a grammar. `rules` has the place of each of its rules in the bison file."""

    def __init__(self, grammar):
        self.grammar, self.names, self.page, self.rules = grammar, Names(grammar), Page(), []
        # how many actions within rules were on each line
        self.on_line = {}
        self.declared = {self.names.of(it.word) for made in grammar.declarations for it in made.symbols}
        self.lefts = {self.names.of(rule.left) for rule in grammar.rules}
        self.used = {it.word for rule in grammar.rules for it in rule.symbols()}
        self.check_ends()
        self.put_declarations()
        for rule in grammar.rules:
            self.put_rule(rule)

    def place(self, it):
        return self.grammar.file.place(it.at)

    def symbol(self, it):
        """The name of a symbol, or END_OF_FILE for the literal of byte 0, which a yacc file can't have."""
        return self.names.of('"END_OF_FILE"') if BYTE_0.fullmatch(it.word) else self.names.of(it.word)

    def is_idle_end(self, it):
        """Whether a token is the end of the input, and no rule uses it."""
        named = self.grammar.aliases.get(it.word, it.word)
        return named in self.grammar.ends and all(self.grammar.aliases.get(one, one) != named for one in self.used)

    def check_ends(self):
        """Notes where the automaton may differ from bison's."""
        grammar = self.grammar
        for rule in grammar.rules:
            for it in rule.symbols():
                if grammar.aliases.get(it.word, it.word) in grammar.ends:
                    what = f"{it.word} is the end of the input, but an ordinary token here"
                    grammar.notes.add(grammar.line_of(it), what, CHANGE)
        for made in grammar.declarations:
            if made.kind == "%precedence" and grammar.may_tie(made):
                what = "%precedence is written %nonassoc: a tie that bison counts as a conflict isn't one here"
                grammar.notes.add(grammar.line_of(made), what, CHANGE)

    def put_declarations(self):
        """The declarations, those among the rules too, and what bison needs none for."""
        grammar, put = self.grammar, self.page.put
        start = grammar.start
        early = [it for it in grammar.declarations if not it.in_rules]
        if start and grammar.start_at < grammar.mark_at:
            early.append(start)
        for it in sorted(early, key=lambda it: it.at):
            if it is start:
                put("%start", grammar.file.place(grammar.start_at))
                put(self.names.of(start.word), self.place(start))
            else:
                self.put_declaration(it)
        mark = grammar.file.place(grammar.mark_at)
        for it in grammar.declarations:
            if it.in_rules:
                self.put_declaration(it, mark)
        if start and grammar.start_at > grammar.mark_at:
            put(f"%start {self.names.of(start.word)}", mark)
        if not start and grammar.rules and grammar.rules[0].middle_actions():
            # (the rule of that action comes first)
            put(f"%start {self.names.of(grammar.rules[0].left)}", mark)
        for name, it in self.undeclared().items():
            put(f"%token {name}", mark, self.place(it))
        put("%%", mark)

    def put_declaration(self, made, where=None):
        symbols = [it for it in made.symbols if not self.is_idle_end(it)]
        if symbols:
            kind = "%nonassoc" if made.kind == "%precedence" else made.kind
            self.page.put(kind, where or self.place(made), self.place(made))
            for it in symbols:
                self.page.put(self.symbol(it), where or self.place(it), self.place(it))

    def undeclared(self):
        """The tokens that bison knows without a declaration, by their names: strings, `error`, and names that only a
        %prec has."""
        found = {}
        for rule in self.grammar.rules:
            symbols = rule.symbols()
            for it in symbols + ([rule.precedence] if rule.precedence else []):
                name = self.symbol(it)
                if name in self.declared or name in self.lefts or name.startswith("'"):
                    continue
                if it is rule.precedence or self.is_known(it):
                    found.setdefault(name, it)
        return found

    def is_known(self, it):
        """Whether a symbol is a token without a declaration."""
        word = self.grammar.aliases.get(it.word, it.word)
        return word[0] == '"' or word in ("error", "YYEOF", "YYUNDEF", "YYerror") or bool(BYTE_0.fullmatch(word))

    def action_name(self, it):
        """A name for an action within a rule, by its line."""
        line = self.grammar.line_of(it)
        self.on_line[line] = self.on_line.get(line, 0) + 1
        return self.names.new(f"action_{line}" + (f"_{self.on_line[line]}" if self.on_line[line] > 1 else ""))

    def put_rule(self, rule):
        """A body. Each action within it becomes an empty nonterminal, whose rule precedes the body, as bison has it."""
        place, put = self.place(rule), self.page.put
        made = {it: self.action_name(it) for it in rule.middle_actions()}
        for it, name in made.items():
            put(f"{name} : ;", place, self.place(it))
            self.rules.append(self.place(it))
        self.rules.append(place)
        put(self.names.of(rule.left) + " :" if rule.is_first or made else "|", place)
        for it in rule.parts:
            if it in made or not isinstance(it, Action):
                put(made[it] if it in made else self.symbol(it), self.place(it))
        if rule.precedence:
            # (bison allows it before symbols, POSIX doesn't)
            put(f"%prec {self.symbol(rule.precedence)}", self.place(rule.precedence))
