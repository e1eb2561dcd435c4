#!/usr/bin/env python3
"""A second opinion on lytab's parser side, written from the rules alone.

    lyref.py FILE.y [--steady] [--report]

Reads a yacc file in the language of docs/yacc-file.md strictly, builds the LALR(1) automaton (least
access prefixes, DeRemer and Pennello), settles conflicts by POSIX's rules as
lytab states them, chooses defaults, places the combs, and prints one line of
JSON.  With --steady the relative runs above each edge are made and counted;
with --report the report's lines follow.  It shares no code with
lytab, bison or byacc.
"""
import json
import re
import sys

WORD = re.compile(r"""
   (?P<ws>[ \t\n]+|/\*.*?\*/)
 | (?P<mark>%%)
 | (?P<dir>%[a-z]+)
 | (?P<lit>'(?:\\x[0-9a-fA-F]*|\\[0-7]{1,3}|\\[^\n]|[^'\\\n])')
 | (?P<name>[A-Za-z_.][A-Za-z0-9_.]*)
 | (?P<num>[0-9]+)
 | (?P<tag><[A-Za-z_.][A-Za-z0-9_.]*>)
 | (?P<act>\{[^{}]*\})
 | (?P<punct>[:;|])
""", re.X | re.S)

ESC = {'a': 7, 'b': 8, 'f': 12, 'n': 10, 'r': 13, 't': 9, 'v': 11}

def literal_byte(text):
    body = text[1:-1]
    if body[0] != '\\':
        return ord(body)
    if body[1] == 'x' and len(body) > 2:
        return int(body[2:], 16)
    if body[1] in '01234567':
        return int(body[1:], 8)
    return ESC.get(body[1], ord(body[1]))

def escaped(byte, quote):
    c = chr(byte)
    if c == '\\' or c == quote:
        return '\\' + c
    if 32 <= byte <= 126:
        return c
    return {10: '\\n', 9: '\\t'}.get(byte, '\\x%02x' % byte)

class Grammar:
    def __init__(self, text):
        words = []
        i, marks = 0, 0
        while i < len(text):
            m = WORD.match(text, i)
            if not m:
                raise SystemExit('not in the language at line %d: %r' % (text.count('\n', 0, i) + 1, text[i:i + 20]))
            i = m.end()
            if m.lastgroup == 'ws':
                continue
            if m.lastgroup == 'mark':
                marks += 1
                if marks == 2:
                    break
            words.append((m.lastgroup, m.group()))
        self.terms = ['$end', '$undef']
        self.term_no = {}
        self.bytes = {}
        self.prec = {}
        self.decls = []            # (directive, keys), as they stand
        raw = self.raw = []        # (left, keys, key of %prec or None, action or None)
        p, level, start, order = 0, 0, None, []
        while words[p][0] != 'mark':
            kind, d = words[p]
            p += 1
            assert kind == 'dir', words[p - 1]
            if d in ('%left', '%right', '%nonassoc'):
                level += 1
            if d == '%start':
                start = words[p][1]
                p += 1
                continue
            assert d in ('%token', '%left', '%right', '%nonassoc', '%type'), d
            self.decls.append((d, []))
            while words[p][0] in ('name', 'lit', 'tag', 'num'):
                if words[p][0] in ('name', 'lit') and d != '%type':
                    key = self.key(words[p])
                    order.append(key)
                    self.decls[-1][1].append(key)
                    if d != '%token':
                        assert key not in self.prec, 'precedence twice %s' % (key,)
                        self.prec[key] = (level, d[1:])
                p += 1
        p += 1
        left, body, prec, act, is_open = None, [], None, None, False
        def close():
            nonlocal body, prec, act, is_open
            if is_open:
                raw.append((left, body, prec, act))
            body, prec, act, is_open = [], None, None, False
        while p < len(words) and words[p][0] != 'mark':
            kind, t = words[p]
            if kind == 'name' and p + 1 < len(words) and words[p + 1] == ('punct', ':'):
                close()
                left, is_open = t, True
                p += 2
                continue
            p += 1
            if kind in ('name', 'lit'):
                assert act is None and prec is None, 'symbol after action or %prec'
                assert t != 'error', 'error token'
                body.append(self.key((kind, t)))
            elif kind == 'act':
                assert act is None, 'second action'
                act = t
            elif (kind, t) == ('dir', '%prec'):
                prec = self.key(words[p])
                p += 1
            elif t == '|':
                close()
                is_open = True
            elif t == ';':
                close()
            else:
                raise SystemExit('word %r in a rule' % (t,))
        close()
        lefts = []
        for r in raw:
            if r[0] not in lefts:
                lefts.append(r[0])
        leftset = set(lefts)
        seen = set()
        def see(key):
            if key in seen or (key[0] == 'name' and key[1] in leftset):
                return
            seen.add(key)
            self.term_no[key] = len(self.terms)
            if key[0] == 'lit':
                self.bytes[key[1]] = len(self.terms)
                self.terms.append("'" + escaped(key[1], "'") + "'")
            else:
                self.terms.append(key[1])
        for key in order:
            assert not (key[0] == 'name' and key[1] in leftset), 'token on left %s' % (key,)
            see(key)
        declared = set(order)
        for _, body, prec, _ in raw:
            for key in body + ([prec] if prec else []):
                if key[0] == 'name' and key[1] not in leftset:
                    assert key in declared, 'undefined symbol %s' % (key,)
                see(key)
        self.nonterms = lefts
        self.T, self.N = len(self.terms), len(lefts)
        n_no = {n: i for i, n in enumerate(lefts)}
        def number(key):
            return self.T + n_no[key[1]] if key[0] == 'name' and key[1] in leftset else self.term_no[key]
        self.start = self.T + (n_no[start] if start else 0)
        self.rules = [(self.T + self.N, [self.start, 0], None)]
        self.actions = [None]
        for left, body, prec, act in raw:
            nums = [number(k) for k in body]
            if prec is None:
                toks = [k for k in body if number(k) < self.T]
                prec = toks[-1] if toks else None
            self.rules.append((self.T + n_no[left], nums, self.prec.get(prec) if prec else None))
            self.actions.append(act)
        self.tprec = {self.term_no[k]: v for k, v in self.prec.items()}

    def key(self, word):
        kind, t = word
        return ('lit', literal_byte(t)) if kind == 'lit' else ('name', t)

    def name(self, s):
        return self.terms[s] if s < self.T else self.nonterms[s - self.T]

    def reduce(self):
        productive = set(range(self.T))
        grew = True
        while grew:
            grew = False
            for left, body, _ in self.rules[1:]:
                if left not in productive and all(s in productive for s in body):
                    productive.add(left)
                    grew = True
        if self.start not in productive:
            raise SystemExit('fault 60 StartUnproductive')
        ok = [r for r in range(1, len(self.rules)) if all(s in productive for s in self.rules[r][1])]
        by = {}
        for r in ok:
            by.setdefault(self.rules[r][0], []).append(r)
        reached, todo = {self.start}, [self.start]
        while todo:
            for r in by.get(todo.pop(), []):
                for s in self.rules[r][1]:
                    if s >= self.T and s not in reached:
                        reached.add(s)
                        todo.append(s)
        self.kept = [r for r in ok if self.rules[r][0] in reached]
        kept = set(self.kept)
        self.removed = [r for r in range(1, len(self.rules)) if r not in kept]
        self.by = {a: [r for r in rs if r in kept] for a, rs in by.items() if a in reached}
        self.by[self.T + self.N] = [0]
        nullable = set()
        grew = True
        while grew:
            grew = False
            for r in self.kept:
                left, body, _ = self.rules[r]
                if left not in nullable and all(s in nullable for s in body):
                    nullable.add(left)
                    grew = True
        self.nullable = nullable

class Lalr:
    def __init__(self, g):
        self.g = g
        g.reduce()
        self.automaton()
        self.lookaheads()
        self.resolve()
        self.pack()

    def automaton(self):
        g = self.g
        left_of = {}
        for a in g.by:
            seen, todo = {a}, [a]
            while todo:
                for r in g.by.get(todo.pop(), []):
                    b = g.rules[r][1]
                    if b and b[0] >= g.T and b[0] not in seen:
                        seen.add(b[0])
                        todo.append(b[0])
            left_of[a] = sorted(seen)
        self.states, self.prefix, self.goto = [((0, 0),)], [[]], []
        index = {self.states[0]: 0}
        self.complete = []
        i = 0
        while i < len(self.states):
            moves, done, closed = {}, [], set()
            for r, d in self.states[i]:
                body = g.rules[r][1]
                if d == len(body):
                    done.append(r)
                else:
                    moves.setdefault(body[d], []).append((r, d + 1))
                    if body[d] >= g.T:
                        closed.update(left_of[body[d]])
            for a in closed:
                for r in g.by[a]:
                    body = g.rules[r][1]
                    if body:
                        moves.setdefault(body[0], []).append((r, 1))
                    else:
                        done.append(r)
            goto = {}
            for s in sorted(moves):
                if s == 0:
                    goto[0] = None          # accepting
                    continue
                core = tuple(sorted(set(moves[s])))
                j = index.get(core)
                if j is None:
                    j = index[core] = len(self.states)
                    self.states.append(core)
                    self.prefix.append(self.prefix[i] + [s])
                goto[s] = j
            self.goto.append(goto)
            self.complete.append(sorted(set(done)))
            i += 1

    def digraph(self, n, edges, value):
        index, low, comp = [0] * n, [0] * n, [False] * n
        stack, counter = [], 0
        for root in range(n):
            if index[root]:
                continue
            counter += 1
            index[root] = low[root] = counter
            stack.append(root)
            work = [(root, iter(edges[root]))]
            while work:
                v, it = work[-1]
                for w in it:
                    if not index[w]:
                        counter += 1
                        index[w] = low[w] = counter
                        stack.append(w)
                        work.append((w, iter(edges[w])))
                        break
                    if not comp[w]:
                        low[v] = min(low[v], index[w])
                    value[v] |= value[w]
                else:
                    work.pop()
                    if work:
                        u = work[-1][0]
                        if not comp[v]:
                            low[u] = min(low[u], low[v])
                        value[u] |= value[v]
                    if low[v] == index[v]:
                        while True:
                            w = stack.pop()
                            comp[w] = True
                            value[w] = value[v]
                            if w == v:
                                break
                        if work:
                            value[work[-1][0]] |= value[v]

    def lookaheads(self):
        g = self.g
        trans, no = [], {}
        for p, goto in enumerate(self.goto):
            for s in goto:
                if s >= g.T:
                    no[p, s] = len(trans)
                    trans.append((p, s))
        n = len(trans)
        read, reads = [0] * n, [[] for _ in range(n)]
        for k, (p, a) in enumerate(trans):
            r = self.goto[p][a]
            for s in self.goto[r]:
                if s < g.T:
                    read[k] |= 1 << s
                elif s in g.nullable:
                    reads[k].append(no[r, s])
        self.digraph(n, reads, read)
        includes = [[] for _ in range(n)]
        lookback = {}
        for k, (q, b) in enumerate(trans):
            for r in g.by[b]:
                body = g.rules[r][1]
                p = q
                ends = len(body)
                while ends > 0 and body[ends - 1] in g.nullable:
                    ends -= 1
                for d, s in enumerate(body):
                    if s >= g.T and d + 1 >= ends:
                        includes[no[p, s]].append(k)
                    p = self.goto[p][s]
                lookback.setdefault((p, r), []).append(k)
        self.digraph(n, includes, read)
        self.la = {}
        for key, ks in lookback.items():
            v = 0
            for k in ks:
                v |= read[k]
            self.la[key] = v
        self.sizes = {'transitions': n, 'reads': sum(map(len, reads)), 'includes': sum(map(len, includes)),
                      'lookback': sum(map(len, lookback.values()))}

    def resolve(self):
        g = self.g
        self.conflicts, self.rows = [], []
        self.free = True
        self.bison = [0, 0]                 # bison's own way to count
        for p, goto in enumerate(self.goto):
            row = {}
            cand = {}
            for s in goto:
                if s < g.T:
                    cand[s] = []
            for r in self.complete[p]:
                v = self.la.get((p, r), 0)
                while v:
                    t = (v & -v).bit_length() - 1
                    cand.setdefault(t, []).append(r)
                    v &= v - 1
            for t in sorted(cand):
                rs = sorted(cand[t])
                shift = t in goto
                if len(rs) + shift > 1:
                    self.free = False
                sr, rr = [], []
                if not shift:
                    row[t] = ('r', rs[0])
                    rr = rs[1:]
                    self.bison[1] += len(rs) - 1
                else:
                    tp = g.tprec.get(t)
                    won, falls = [], False
                    stands, left = True, 0      # bison: one rule after another, against what still stands
                    for r in rs:
                        rp = g.rules[r][2]
                        if tp is None or rp is None:
                            sr.append(r)
                            left += 1
                            continue
                        wins = rp[0] > tp[0] or (rp[0] == tp[0] and tp[1] == 'left')
                        tie = rp[0] == tp[0] and tp[1] == 'nonassoc'
                        if wins:
                            won.append(r)
                        falls = falls or wins or tie
                        left += wins or not stands
                        stands = stands and not (wins or tie)
                    rr = won[1:]
                    if not falls:
                        row[t] = ('a',) if t == 0 else ('s', goto[t])
                    elif won:
                        row[t] = ('r', won[0])
                    else:
                        row[t] = ('e',)
                    self.bison[0] += stands and left > 0
                    self.bison[1] += max(left - 1, 0)
                for r in sr:
                    self.conflicts.append((p, t, 0, r, row[t]))
                for r in rr:
                    self.conflicts.append((p, t, 1, r, row[t]))
            self.rows.append(row)
        self.conflicts.sort(key=lambda c: c[:4])

    def pack(self):
        g = self.g
        self.defaults, packed, gotos = [], [], []
        for p, row in enumerate(self.rows):
            count = {}
            for e in row.values():
                if e[0] == 'r':
                    count[e[1]] = count.get(e[1], 0) + 1
            d = min(count, key=lambda r: (-count[r], r)) if count else 0
            self.defaults.append(d)
            packed.append(sorted(t for t, e in row.items() if e != ('r', d)))
            gotos.append(sorted(s - g.T for s in self.goto[p] if s >= g.T))
        self.action_entries, self.action_l = self.comb(packed)
        self.goto_entries, self.goto_l = self.comb(gotos)

    def comb(self, rows):
        occupied, top = 0, 0
        for r in sorted(range(len(rows)), key=lambda r: (-len(rows[r]), r)):
            if not rows[r]:
                continue
            forbidden = 0
            for c in rows[r]:
                forbidden |= occupied >> c
            base = (~forbidden & (forbidden + 1)).bit_length() - 1
            for c in rows[r]:
                occupied |= 1 << (base + c)
            top = max(top, base + rows[r][-1] + 1)
        return sum(map(len, rows)), top

    def steady(self, bound=100000):
        """(greatest number of reductions above one edge, None), or (bound + 1, first edge and token past the bound)."""
        g = self.g
        tables = []
        for p, row in enumerate(self.rows):
            d = self.defaults[p]
            tables.append([row.get(t, ('r', d) if d else ('e',)) for t in range(g.T)])
        reducing = [[t for t in range(g.T) if tab[t][0] == 'r'] for tab in tables]
        most = 0
        for below in range(len(self.states)):
            tops = set()
            for s, q in self.goto[below].items():
                if q is not None and (s >= g.T or tables[below][s] == ('s', q)):
                    tops.add(q)
            for top in sorted(tops):
                for t in reducing[top]:
                    stack, count = [below, top], 0
                    while True:
                        e = tables[stack[-1]][t]
                        if e[0] != 'r':
                            break
                        left, body, _ = g.rules[e[1]]
                        if len(body) >= len(stack):
                            break
                        if body:
                            del stack[-len(body):]
                        q = self.goto[stack[-1]].get(left)
                        if q is None:
                            break
                        stack.append(q)
                        count += 1
                        if count > bound:
                            return count, (below, top, g.name(t))
                    most = max(most, count)
        return most, None

    def facts(self):
        g = self.g
        sr = sum(1 for c in self.conflicts if c[2] == 0)
        return {'T': g.T, 'N': g.N, 'rules': len(g.rules) - 1, 'removed': len(g.removed),
                'states': len(self.states), 'sr': sr, 'rr': len(self.conflicts) - sr,
                'conflict_free': self.free, 'bison_sr': self.bison[0], 'bison_rr': self.bison[1],
                'action_entries': self.action_entries, 'action_L': self.action_l,
                'goto_entries': self.goto_entries, 'goto_L': self.goto_l,
                'error_entries': sum(1 for r in self.rows for e in r.values() if e[0] == 'e'),
                'defaults': sum(1 for d in self.defaults if d), **self.sizes}

    def report(self):
        g = self.g
        out = ['removed rules: %d' % len(g.removed)]
        for r in g.removed:
            left, body, _ = g.rules[r]
            out.append('removed rule %d: %s :%s' % (r, g.name(left), ''.join(' ' + g.name(s) for s in body)))
        sr = sum(1 for c in self.conflicts if c[2] == 0)
        out.append('conflicts: %d shift/reduce, %d reduce/reduce' % (sr, len(self.conflicts) - sr))
        for p, t, kind, r, e in self.conflicts:
            prefix = ' '.join(g.name(s) for s in self.prefix[p])
            choice = {'s': 'shift', 'a': 'shift', 'e': 'error'}.get(e[0]) or 'rule %d' % e[1]
            word = 'reduce/reduce' if kind else 'shift/reduce'
            out.append('%s after [%s] before %s: %s, not rule %d' % (word, prefix, g.name(t), choice, r))
        return '\n'.join(out) + '\n'

def load(path):
    with open(path, encoding='latin-1') as f:
        return Grammar(f.read())

if __name__ == '__main__':
    sys.setrecursionlimit(10000)
    lalr = Lalr(load(sys.argv[1]))
    print(json.dumps(lalr.facts()))
    if '--steady' in sys.argv:
        print('reductions above one edge at most %d; past the bound: %s' % lalr.steady())
    if '--report' in sys.argv:
        sys.stdout.write(lalr.report())
