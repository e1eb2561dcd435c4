"""What the C code of a scanner's action returns, and which start condition it sets."""
import re

from .bison import BYTE_0, LITERAL
from .names import plain
from .text import C_PIECE, CHANGE, HARMLESS, LOST, without_comments, without_strings

# a word, a space, or a part of C as text.py has it
C_WORD = re.compile(rf"\w+|\s+|{C_PIECE.pattern}", re.DOTALL)
BEGIN = re.compile(r"\bBEGIN\b\s*\(?\s*(\w+)")
PUSH = re.compile(r"\byy_push_state\s*\(\s*(\w+)")
POP = re.compile(r"\byy_pop_state\b")
NOT_KEPT = re.compile(r"\b(REJECT|yymore|yyless|unput|yyterminate|ECHO|yypush_buffer_state|yy_switch_to_buffer)\b")
READS = re.compile(r"\b(?:yy)?input\s*\(")
FIRST_BYTE = re.compile(r"yytext\s*\[\s*0\s*\]|\*\s*yytext\b")
CAPITALS = re.compile(r"[A-Z][A-Z0-9_]*")
NO_TOKENS = {"NULL", "TRUE", "FALSE", "YY_NULL", "YY_START", "YYSTATE"}
ENDS = {"EOF", "YYEOF", "YY_NULL"}
# tokens that are returned for errors
BAD = re.compile(r"err(?!no)|invalid|illegal|bad(?![a-z])|unknown|nomatch|unexpected|unrecognized", re.IGNORECASE)
LOOKS_LOST = re.compile(r"\b[A-Za-z_]\w*\s*\(|\b[A-Z][A-Z0-9_]+\b")
NO_CALLS = {"if", "while", "for", "switch", "sizeof", "return", "BEGIN", "yy_push_state"}
DEFINE = re.compile(r"^[ \t]*#[ \t]*define[ \t]+(\w+)(\([^()\n]*\))?((?:[^\n\\]|\\.|\\\n)*)", re.MULTILINE | re.DOTALL)
LEADS = re.compile(r"\breturn\b|\bBEGIN\b|\byy_push_state\b|\byy_pop_state\b")
YYLESS = re.compile(r"\byyless\s*\(\s*(?:\(int\)\s*)?(?:(\d+)|yyleng\s*-\s*(\d+))\s*\)")
CONDITIONAL = re.compile(r"\bif\b|\bswitch\b|\?")
DEPTH = 6


def parts_of(code):
    """The words, spaces, strings, characters and single bytes of C code."""
    return [it[0] for it in C_WORD.finditer(code)]


def arguments_at(parts, at):
    """The arguments between parentheses that begin at a part, after spaces, and the number of the part after them; None
    if there are none."""
    while at < len(parts) and parts[at].isspace():
        at += 1
    if at == len(parts) or parts[at] != "(":
        return None
    found, depth = [""], 0
    for number in range(at, len(parts)):
        it = parts[number]
        depth += (it == "(") - (it == ")")
        if depth == 0:
            return [one.strip() for one in found], number + 1
        if it == "," and depth == 1:
            found.append("")
        elif number > at:
            found[-1] += it
    return None


def returned_in(code):
    """What stands after each `return`, up to the semicolon or the brace."""
    found, inside = [], False
    for it in parts_of(code):
        if it == "return":
            found.append("")
            inside = True
        elif it in ";}":
            inside = False
        elif inside:
            found[-1] += it
    return found


def called_in(code):
    """The arguments of calls, those within others too."""
    parts, found = parts_of(code), []
    for at, it in enumerate(parts):
        if re.fullmatch(r"[A-Za-z_]\w*", it) and it not in NO_CALLS:
            given = arguments_at(parts, at + 1)
            found += given[0] if given else []
    return found


class Macros:
    """The macros of a file that lead to a `return` or to a start condition."""

    def __init__(self, text):
        self.found = {}
        for it in DEFINE.finditer(text):
            parameters = [one.strip() for one in (it[2] or "")[1:-1].split(",")] if it[2] else None
            self.found[it[1]] = (parameters, without_comments(it[3].replace("\\\n", " ")))
        self.leading = {name for name in self.found if self.leads(name, set())}

    def leads(self, name, seen):
        """Whether a macro leads to a `return` or to a start condition, by others too."""
        body = self.found[name][1]
        if LEADS.search(body):
            return True
        seen.add(name)
        others = {it for it in re.findall(r"\w+", body) if it in self.found and it not in seen}
        return any(self.leads(it, seen) for it in others)

    def expand(self, code, depth=0):
        """The code with these macros written out."""
        if not self.leading or depth > DEPTH:
            return code
        parts, out, at = parts_of(code), [], 0
        while at < len(parts):
            name = parts[at]
            at += 1
            if name not in self.leading:
                out.append(name)
                continue
            parameters, body = self.found[name]
            given = arguments_at(parts, at) if parameters is not None else None
            if given:
                at = given[1]
            out.append(self.expand(written_out(parameters or [], given[0] if given else [], body), depth + 1))
        return "".join(out)


def written_out(parameters, given, body):
    """The body of a macro with its arguments. `##` joins words, `#` makes a string."""
    values = dict(zip(parameters, given))
    body = re.sub(r"(?<!#)#\s*(\w+)\b", lambda it: '""' if it[1] in values else it[0], re.sub(r"\s*##\s*", "##", body))
    return f" {''.join(values.get(it, it) for it in parts_of(body))} ".replace("##", "")


class Actions:
    """Reads the actions of a scanner. `returned` has the names that they return and that no declaration has."""

    def __init__(self, text, trees, conditions, notes):
        self.macros, self.trees, self.grammar = Macros(text), trees, trees.grammar
        self.conditions, self.notes, self.returned = conditions, notes, []

    def read(self, code, line, is_known=False):
        """The action as lytab has it. `is_known` says that the pattern has what the action does beside returning."""
        code = self.macros.expand(without_comments(code))
        for word in dict.fromkeys([] if is_known else NOT_KEPT.findall(without_strings(code))):
            rank = LOST if word in ("ECHO", "yyterminate") else CHANGE
            self.notes.add(line, f"{word} is dropped", rank)
        begins = self.begins(code, line)
        expressions = returned_in(code)
        returns = list(dict.fromkeys(it for one in expressions for it in self.returned_by(one, line)))
        if not expressions:
            returns = self.named_by_call(code, line)
        if len(returns) > 1:
            sound = [it for it in returns if not BAD.search(it)] or returns
            self.notes.add(line, f"of several tokens one is returned, {sound[0]}: {', '.join(returns)}", CHANGE)
            returns = sound
        if not begins and not returns and not is_known and not any(map(self.is_end, expressions)):
            self.note_lost(code, line)
        words = [f"BEGIN({begins[0]});"] if begins else []
        words += [f"return {returns[0]};"] if returns else []
        return "{ " + " ".join(words) + " }" if len(words) > 1 else "".join(words) or ";"

    def begins(self, code, line):
        """The start conditions that an action sets."""
        found = [plain(it) for it in BEGIN.findall(code) + PUSH.findall(code)]
        if POP.search(code):
            self.notes.add(line, "there is no stack of conditions: yy_pop_state() sets INITIAL", CHANGE)
            found = found or ["INITIAL"]
        elif PUSH.search(code):
            self.notes.add(line, "there is no stack of conditions: yy_push_state() is BEGIN", CHANGE)
        known = [it for it in found if it == "0" or it in map(plain, self.conditions)]
        if len(set(known)) > 1:
            self.notes.add(line, f"of several conditions the first is set: {', '.join(known)}", CHANGE)
        if len(known) < len(found):
            self.notes.add(line, "the start condition that an expression names isn't set", LOST)
        return known

    def note_lost(self, code, line):
        """Notes an action from which nothing was read."""
        rest = " ".join(code.replace("{", " ").replace("}", " ").split()).strip("; ")
        if rest:
            rank = LOST if LOOKS_LOST.search(without_strings(rest)) else HARMLESS
            self.notes.add(line, f"nothing is read from the action: {rest[:50]}{'..' if rest[50:] else ''}", rank)

    def named_by_call(self, code, line):
        """The one token that the arguments of calls name."""
        found = [it for argument in called_in(code) for it in self.tokens(argument)]
        found = list(dict.fromkeys(found))
        if len(found) != 1:
            return []
        self.notes.add(line, f"a call names {found[0]}, which is returned")
        return found

    def tokens(self, expression):
        """The declared tokens that an expression names, as lytab has their names."""
        names = re.findall(r"[A-Za-z_]\w*", without_strings(expression))
        return [self.trees.names.of(it) for name in names for it in self.in_c(name) if it in self.trees.tokens]

    def in_c(self, name):
        """The tokens that a name of C may be, with what C code puts before their names."""
        name = name.removeprefix("make_")
        shorter = name.removeprefix(self.grammar.prefix)
        return [shorter] if shorter in self.trees.tokens | self.grammar.ends else [name]

    def is_end(self, expression):
        """Whether the end of the input is returned, and no token."""
        names = re.findall(r"[A-Za-z_]\w*", without_strings(expression))
        has_end = any(one in self.grammar.ends for name in names for one in self.in_c(name)) or ENDS & set(names)
        return not self.tokens(expression) and bool(has_end or expression.strip(" ()") == "0")

    def returned_by(self, expression, line):
        """What a `return` has: tokens, a literal or the first byte; nothing if it is none of them."""
        declared = list(dict.fromkeys(self.tokens(expression)))
        literals = [it for it in LITERAL.findall(expression) if not BYTE_0.fullmatch(it)]
        if "?" in without_strings(expression):
            branches = expression.split("?", 1)[1]
            declared = list(dict.fromkeys(self.tokens(branches))) or declared
            literals = [it for it in LITERAL.findall(branches) if not BYTE_0.fullmatch(it)]
            if declared or literals:
                return declared + literals
        if FIRST_BYTE.search(expression) and not declared:
            return ["yytext[0]"]
        if literals and not declared:
            return literals[:1]
        if self.is_end(expression):
            self.notes.add(line, "the end of the input is returned: the match is skipped here", CHANGE)
            return []
        names = [one for name in re.findall(r"[A-Za-z_]\w*", without_strings(expression)) for one in self.in_c(name)]
        capitals = [it for it in names if CAPITALS.fullmatch(it) and it not in NO_TOKENS]
        if not declared and capitals:
            self.returned.append(capitals[0])
        return (declared or capitals)[:1]
