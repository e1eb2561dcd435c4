#!/usr/bin/env python3
"""mklemon.py RE YACC OUT: the peer of `lytab try LEX YACC` by re2c and lemon, in C.

RE has the rules of the lex file as re2c writes them; YACC is a yacc file as lytab reads it. Writes OUT/rl.re for re2c,
whose program reads the whole text first, and OUT/rl-parse.y for lemon, so that the built program answers a text of the
language as mkref.py's does: `PROG parse FILE` writes the tree, `PROG tokens FILE` one leaf a line, `q` and `n` nothing.
Another text is refused without a word, with status 1.  `make.sh OUT` builds it.
"""
import os
import re
import sys

here = os.path.dirname(os.path.abspath(__file__))
sys.dont_write_bytecode = True
sys.path.insert(0, here)
import lyref
import mkref

PARSER = '''%%include {
%s
static struct node *answer;
static int is_refused;
}
%%token_type {struct node *}
%%default_type {struct node *}
%%stack_size 0
%%syntax_error { is_refused = 1; }
'''

PROGRAM = r'''
#include "rl-parse.c"
@names@
static void put_name(int code) { put_text(names[code]); }
''' + mkref.TREES + r'''
static const unsigned char *text, *cursor, *limit, *start;
static int raw_lex(void) {
    const unsigned char *marker = 0;
    for (;;) {
        start = cursor;
/*!re2c
    re2c:define:YYCTYPE = "unsigned char";
    re2c:define:YYCURSOR = cursor;
    re2c:define:YYMARKER = marker;
    re2c:define:YYLIMIT = limit;
    re2c:yyfill:enable = 0;
    re2c:eof = 0;
*/
@rules@
    }
}

int main(int argc, char **argv) {
    if (argc < 3) return 4;
    FILE *file = fopen(argv[2], "rb");
    if (!file || fseek(file, 0, SEEK_END)) return 3;
    size_t size = (size_t)ftell(file);
    rewind(file);
    unsigned char *bytes = malloc(size + 1);
    if (!bytes || fread(bytes, 1, size, file) != size) return 3;
    bytes[size] = 0;
    text = cursor = bytes;
    limit = bytes + size;
    int code;
    if (argv[1][0] == 'n' || argv[1][0] == 't') {
        while ((code = raw_lex()) != 0 && code != STUCK)
            if (argv[1][0] == 't') { put_leaf(code, (const char *)start, (size_t)(cursor - start)); put('\n'); }
        put_flush();
        return code == STUCK;
    }
    yyParser parser;
    ParseInit(&parser);
    do {
        code = raw_lex();
        if (code == STUCK) return 1;
        Parse(&parser, code, code ? leaf(code, (const char *)start, (size_t)(cursor - start)) : 0);
    } while (code && !is_refused);
    if (is_refused) return 1;
    if (argv[1][0] == 'p') { show(answer); put('\n'); }
    put_flush();
    return 0;
}
'''


def spell(key):
    return 'L_%02X' % key[1] if key[0] == 'lit' else mkref.safe(key[1])


def rule(left, body, prec, act):
    """A rule of lemon's: what an action uses has a label, and nothing else has."""
    made, used = 'R = A1;', ['1']
    if act:
        passed = re.fullmatch(r'\{\s*\$\$\s*=\s*\$(\d+)\s*;\s*\}', act)
        node = re.fullmatch(r'\{\s*\$\$\s*=\s*(\w+)\s*\(\s*(.*?)\s*\)\s*;\s*\}', act, re.S)
        used = [passed.group(1)] if passed else re.findall(r'\d+', node.group(2))
        kids = ''.join('t->kid[%d] = A%s; ' % at for at in enumerate(used))
        made = 'R = A%s;' % used[0] if passed else 'struct node *t = build("%s", %d); %sR = t;' % (node.group(1), len(used), kids)
    elif not body:
        made, used = 'R = build(0, 0);', []
    symbols = ''.join(' %s%s' % (spell(key), '(A%d)' % at if str(at) in used else '') for at, key in enumerate(body, 1))
    return '%s(R) ::=%s.%s { %s }' % (mkref.safe(left), symbols, ' [%s]' % spell(prec) if prec else '', made)


def main():
    rules, yaccfile, out = sys.argv[1:4]
    os.makedirs(out, exist_ok=True)
    grammar = lyref.load(yaccfile)
    lines = [PARSER % (mkref.COMMON + mkref.ARENA + mkref.BYTES)]
    keys = {key: None for _, declared in grammar.decls for key in declared}
    keys.update((key, None) for _, body, _, _ in grammar.raw for key in body if key in grammar.term_no)
    lines += ['%%token %s.' % spell(key) for key in keys]
    lines += ['%s %s.' % (word, ' '.join(map(spell, declared))) for word, declared in grammar.decls if declared and word != '%token']
    lines.append('answer_of_text ::= %s(A). { answer = A; }' % mkref.safe(grammar.name(grammar.start)))
    lines += [rule(*raw) for raw in grammar.raw]
    with open(out + '/rl-parse.y', 'w', encoding='latin-1') as file:
        file.write('\n'.join(lines) + '\n')
    named = ['    [%s] = "%s",' % (spell(key), grammar.terms[grammar.term_no[key]].replace('\\', '\\\\').replace('"', '\\"')) for key in keys]
    bytes_of = ["    [%d] = %s," % (key[1], spell(key)) for key in keys if key[0] == 'lit']
    names = ['static const char *const names[] = {', *named, '};', 'static const unsigned char of_byte[256] = {', *bytes_of, '};']
    with open(rules, encoding='latin-1') as file:
        text = PROGRAM.replace('@names@', '\n'.join(names)).replace('@rules@', file.read())
    with open(out + '/rl.re', 'w', encoding='latin-1') as file:
        file.write(text)


main()
