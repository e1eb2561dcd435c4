#!/usr/bin/env python3
"""mkref.py LEX YACC OUT: the peer of `lytab try LEX YACC`, in C.

From a lex and a yacc file as lytab reads them (YACC may be `-`) writes
OUT/scan.l for flex and OUT/parse.y for bison and byacc, so that the built
program answers as lytab does: `PROG parse FILE` writes the tree, the syntax
line or the `no rule` line, `PROG tokens FILE` one leaf a line.  `make.sh OUT`
builds it.  Three differences stay: byacc and bison settle a token with several
reductions against one shift in their own way, a specification that lytab
refuses is not refused here, and no line `expected:` stands behind a syntax line.
"""
import os
import re
import sys

here = os.path.dirname(os.path.abspath(__file__))
sys.dont_write_bytecode = True
sys.path.insert(0, here)
import lyref

COMMON = r'''
#include <stdint.h>
#include <stdio.h>
#include <stdlib.h>
#include <string.h>

struct node { const char *name; uint32_t n; int32_t code; struct node *kid[]; };
#define STUCK 60001
#define BYTE0 60000
'''

# What trees are made of.
ARENA = r'''
static char *room;
static size_t left;
static inline void *take(size_t n) {
    n = (n + 7) & ~(size_t)7;
    if (n > left) {
        left = n > (1u << 20) ? n : (1u << 20);
        room = malloc(left);
        if (!room) { fputs("out of memory\n", stderr); exit(3); }
    }
    void *p = room;
    room += n;
    left -= n;
    return p;
}
static inline struct node *build(const char *name, uint32_t n) {
    struct node *t = take(sizeof *t + n * sizeof t);
    t->name = name;
    t->n = n;
    t->code = -1;
    return t;
}
static inline struct node *leaf(int code, const char *text, size_t len) {
    struct node *t = take(sizeof *t + len);
    t->name = 0;
    t->n = (uint32_t)len;
    t->code = code;
    memcpy(t->kid, text, len);
    return t;
}
'''

# How bytes are written.
BYTES = r'''
static char buffer[1 << 16];
static size_t filled;
static inline void put_flush(void) { fwrite(buffer, 1, filled, stdout); filled = 0; }
static inline void put(char c) { if (filled == sizeof buffer) put_flush(); buffer[filled++] = c; }
static void put_text(const char *s) { while (*s) put(*s++); }
static void put_byte(unsigned char c, char quote) {
    static const char hex[] = "0123456789abcdef";
    if (c == '\\' || c == (unsigned char)quote) { put('\\'); put((char)c); }
    else if (c >= 32 && c <= 126) put((char)c);
    else if (c == 10) { put('\\'); put('n'); }
    else if (c == 9) { put('\\'); put('t'); }
    else { put('\\'); put('x'); put(hex[c >> 4]); put(hex[c & 15]); }
}
'''

# How leaves and trees are written, by a `put_name`.
TREES = r'''
static void put_leaf(int code, const char *text, size_t len) {
    put_name(code);
    put('"');
    for (size_t i = 0; i < len; i++) put_byte((unsigned char)text[i], '"');
    put('"');
}
struct frame { struct node *t; uint32_t next; };
static void show(struct node *root) {
    size_t depth = 0, room_for = 1024;
    struct frame *stack = malloc(room_for * sizeof *stack);
    struct node *t = root;
    for (;;) {
        if (t->code >= 0) put_leaf(t->code, (const char *)t->kid, t->n);
        else if (!t->name) put_text("()");
        else {
            put_text(t->name);
            put('(');
            if (depth == room_for) stack = realloc(stack, (room_for *= 2) * sizeof *stack);
            stack[depth].t = t;
            stack[depth++].next = 0;
        }
        for (;;) {
            if (depth == 0) { free(stack); return; }
            struct frame *f = &stack[depth - 1];
            if (f->next < f->t->n) {
                if (f->next) put(',');
                t = f->t->kid[f->next++];
                break;
            }
            put(')');
            depth--;
        }
    }
}
static void put_number(uint64_t n) { char s[24]; sprintf(s, "%llu", (unsigned long long)n); put_text(s); }
'''

PROLOGUE = COMMON + r'''
#define YYSTYPE struct node *
#define YYSTYPE_IS_DECLARED 1
#define YYMAXDEPTH 400000000
#define YYSTACKSIZE 400000000
#define YYSTACK_USE_ALLOCA 0

extern FILE *yyin;
extern char *yytext;
extern int raw_lex(void);
extern size_t text_at, text_len, text_end;

''' + ARENA + r'''
static int last_code;
static uint64_t tokens_read;
static struct node *answer;
static int yylex(void);
static void yyerror(const char *);
'''

EPILOGUE = r'''
static int yylex(void) {
    int code = raw_lex();
    last_code = code;
    if (code == 0 || code == STUCK) return code;
    tokens_read++;
    yylval = leaf(code, yytext, text_len);
    return code;
}

''' + BYTES + r'''
static int grammar_known;
static void put_name(int code) {
    if (code == BYTE0) code = 0;
    if (code < 256) {
        if (grammar_known && !literal_named[code]) { put_text("$undef"); return; }
        put('\''); put_byte((unsigned char)code, '\''); put('\'');
        return;
    }
    put_text(token_name(code));
}
''' + TREES + r'''
static int status;
static void no_rule(void) {
    put_text("no rule matches at byte ");
    put_number(text_at);
    put('\n');
    status = 1;
}
static void yyerror(const char *m) {
    (void)m;
    status = 1;
    if (last_code == STUCK) { no_rule(); return; }
    if (last_code == 0) {
        put_text("syntax error at end, token ");
        put_number(tokens_read + 1);
        put_text(", byte ");
        put_number(text_end);
    } else {
        put_text("syntax error at token ");
        put_number(tokens_read);
        put_text(", byte ");
        put_number(text_at);
        put_text(": ");
        put_leaf(last_code, yytext, text_len);
    }
    put('\n');
}
int main(int argc, char **argv) {
    if (argc < 2) return 4;
    yyin = argc > 2 ? fopen(argv[2], "rb") : stdin;
    if (!yyin) return 3;
    if (argv[1][0] == 'n') {
        int code;
        while ((code = raw_lex()) != 0)
            if (code == STUCK) { no_rule(); break; }
    } else if (argv[1][0] == 't') {
        for (;;) {
            int code = raw_lex();
            if (code == 0) break;
            if (code == STUCK) { no_rule(); break; }
            put_leaf(code, yytext, text_len);
            put('\n');
        }
    } else {
        grammar_known = 1;
        if (yyparse() == 0) {
            if (argv[1][0] == 'p') { show(answer); put('\n'); }
        }
    }
    put_flush();
    return status;
}
'''

SCANNER = COMMON + r'''
#include "tokens.h"
size_t text_at, text_len, text_end;
#define YY_DECL int raw_lex(void)
#define YY_USER_ACTION text_at = text_end; text_len = (size_t)yyleng; text_end += text_len;
#define FIRST_BYTE (yytext[0] ? (unsigned char)yytext[0] : BYTE0)
'''

def spell(key):
    return "'\\%03o'" % key[1] if key[0] == 'lit' else safe(key[1])

def safe(name):
    """A name that is no C keyword or macro of the generated files."""
    return 'T_' + name.replace('.', '_dot_') if re.match(r'[A-Z]', name) else 'n_' + name.replace('.', '_dot_')

def yacc(g, out):
    w = ['%{' + PROLOGUE + '%}']
    for d, keys in g.decls:
        w.append(d + ' ' + ' '.join(spell(k) for k in keys)) if keys else None
    w.append('%start answer_of_text')
    w.append('%%')
    w.append('answer_of_text : %s { answer = $1; } ;' % safe(g.name(g.start)))
    for left, body, prec, act in g.raw:
        line = safe(left) + ' :' + ''.join(' ' + spell(k) for k in body)
        if prec:
            line += ' %prec ' + spell(prec)
        if act:
            m = re.fullmatch(r'\{\s*\$\$\s*=\s*\$(\d+)\s*;\s*\}', act)
            if m:
                line += ' { $$ = $%s; }' % m.group(1)
            else:
                m = re.fullmatch(r'\{\s*\$\$\s*=\s*(\w+)\s*\(\s*(.*?)\s*\)\s*;\s*\}', act, re.S)
                places = re.findall(r'\d+', m.group(2))
                line += ' { struct node *t = build("%s", %d); %s$$ = t; }' % (
                    m.group(1), len(places), ''.join('t->kid[%d] = $%s; ' % p for p in enumerate(places)))
        elif not body:
            line += ' { $$ = build(0, 0); }'
        w.append(line + ' ;')
    w.append('%%')
    named = [0] * 256
    for b in g.bytes:
        named[b] = 1
    w.append('static const unsigned char literal_named[256] = {%s};' % ','.join(map(str, named)))
    w.append('static const char *token_name(int code) {\n    switch (code) {')
    for t in g.terms[2:]:
        if not t.startswith("'"):
            w.append('    case %s: return "%s";' % (safe(t), t))
    w.append('    default: return "$undef";\n    }\n}')
    w.append(EPILOGUE)
    with open(out, 'w', encoding='latin-1') as f:
        f.write('\n'.join(x for x in w if x is not None))

def lex(text, out):
    parts = re.split(r'^%%.*\n', text, maxsplit=2, flags=re.M)
    rules = parts[1]
    rules = re.sub(r'\(?\s*(?:yytext\s*\[\s*0\s*\]|\*\s*yytext)\s*\)?\s*;', ' FIRST_BYTE;', rules)
    rules = re.sub(r"return\s*\(?\s*([A-Za-z_]\w*)\s*\)?\s*;", lambda m: m.group() if m.group(1) == 'FIRST_BYTE' else 'return %s;' % safe(m.group(1)), rules)
    rules = re.sub(r"return\s*\(?\s*('\\0')\s*\)?;", 'return BYTE0;', rules)
    head = '%option noyywrap 8bit nodefault nounput noinput posix-compat\n%{\n' + SCANNER + '%}\n'
    with open(out, 'w', encoding='latin-1') as f:
        f.write(head + parts[0] + '%%\n' + rules.rstrip('\n') + '\n<*>.|\\n { return STUCK; }\n%%\n')

def main():
    lexfile, yaccfile, out = sys.argv[1:4]
    os.makedirs(out, exist_ok=True)
    with open(lexfile, encoding='latin-1') as f:
        text = f.read()
    if yaccfile == '-':
        names = dict.fromkeys(re.findall(r'return[ (]*([A-Za-z_]\w*)\s*\)?;', text))
        names.pop('yytext', None)
        g = lyref.Grammar(''.join('%%token %s\n' % n for n in names) + '%%\nempty : ;\n')
    else:
        g = lyref.load(yaccfile)
    yacc(g, out + '/parse.y')
    lex(text, out + '/scan.l')

if __name__ == '__main__':
    main()
