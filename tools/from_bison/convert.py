"""Converts a flex file and a bison file to a lex file and a yacc file for lytab."""
import re
import sys

from .bison import Grammar
from .flex import Scanner
from .text import CHANGE, HARMLESS, LOST, print_notes
from .trees import Trees

RETURNED = re.compile(r"\breturn ('(?:\\.|[^'])+'|[\w.]+|yytext\[0\]);")


def unmatched(trees, scanner):
    """The tokens of the rules that no pattern returns."""
    returned = {found for rule in scanner.rules for found in RETURNED.findall(rule)}
    has_bytes = any("return yytext[0];" in rule for rule in scanner.rules)
    return [it for it in trees.used() if it not in returned and not (has_bytes and it.startswith("'"))]


def summary(trees, scanner, found):
    """The line at the end of the notes."""
    counts = [sum(rank == it for rank, _, _, _ in dict.fromkeys(found)) for it in (CHANGE, LOST, HARMLESS)]
    tokens = len(unmatched(trees, scanner))
    return (f"from-bison: changes of the language: {counts[0]}; tokens without a pattern: {tokens}; actions lost: "
            f"{counts[1]}; harmless: {counts[2]}")


def convert(lex_path, yacc_path, lex_out, yacc_out, keeps_actions=False):
    """Converts both files, with notes on standard error. Actions within rules may be kept as empty nonterminals."""
    grammar = Grammar(yacc_path).read()
    trees = Trees(grammar, keeps_actions)
    scanner = Scanner(lex_path, trees).read()
    trees.take_names(scanner.returned_for)
    for path, text in ((lex_out, scanner.written()), (yacc_out, trees.written(scanner.actions.returned))):
        with open(path, "w", encoding="latin-1", newline="") as file:
            file.write(text)
    found = scanner.notes.found + grammar.notes.found
    print_notes(found)
    print(summary(trees, scanner, found), file=sys.stderr)
    return 0
