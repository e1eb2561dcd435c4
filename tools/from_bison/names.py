"""The names that symbols of a bison file get in a yacc file for lytab."""
import re

SIGNS = {
    "!": "NOT", '"': "QUOTE", "#": "HASH", "$": "DOLLAR", "%": "PERCENT", "&": "AND", "'": "APOSTROPHE", "(": "OPEN",
    ")": "CLOSE", "*": "STAR", "+": "PLUS", ",": "COMMA", "-": "MINUS", ".": "DOT", "/": "SLASH", ":": "COLON",
    ";": "SEMICOLON", "<": "LESS", "=": "EQUAL", ">": "GREATER", "?": "QUESTION", "@": "AT", "[": "OPEN_BRACKET",
    "\\": "BACKSLASH", "]": "CLOSE_BRACKET", "^": "CARET", "`": "BACKTICK", "{": "OPEN_BRACE", "|": "BAR",
    "}": "CLOSE_BRACE", "~": "TILDE",
}
WORD_OR_SIGN = re.compile(r"[A-Za-z0-9_]+|[^\s]", re.DOTALL)


def plain(name):
    """A name as lytab has names."""
    return name.replace("-", "_")


def of_string(word):
    """A name for the token of a string: its words in capitals, and a name for each sign."""
    words = WORD_OR_SIGN.findall(word[1:-1])
    parts = [SIGNS.get(it, it.upper() if it[0].isascii() else f"X{ord(it):X}") for it in words]
    name = "_".join(parts).strip("_") or "BLANK"
    return name if name[0].isalpha() else f"T_{name}"


class Names:
    """The names of a grammar's symbols. No two symbols get the same one."""

    def __init__(self, grammar):
        self.grammar, self.given, self.used = grammar, {}, {"error"}
        words = [it.word for rule in grammar.rules for it in rule.symbols()] + [rule.left for rule in grammar.rules]
        words += [it.word for made in grammar.declarations for it in made.symbols]
        words += [rule.precedence.word for rule in grammar.rules if rule.precedence]
        # names that stay as they are come first
        for word in sorted(dict.fromkeys(words), key=lambda it: "-" in it):
            if word[0] not in "'\"" and word != "error":
                self.given[word] = self.new(plain(word))

    def new(self, name):
        """This name, or a longer one if it is used already."""
        while name in self.used:
            name += "_"
        self.used.add(name)
        return name

    def of(self, word):
        """The name of a symbol, which the file has as a name, a literal or a string."""
        word = self.grammar.aliases.get(word, word)
        if word.startswith("'"):
            return word
        if word not in self.given:
            name = "error_" if word == "error" else of_string(word) if word[0] == '"' else plain(word)
            self.given[word] = self.new(name)
        return self.given[word]
