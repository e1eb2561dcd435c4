#!/usr/bin/env python3
"""bench.py LYTAB|- DIR SIZES REPEATS HERE [CORPUS]: called by compare."""
import hashlib
import os
import subprocess
import sys
import time

LIMIT = 600                        # seconds a run may take

def once(words, cwd=None):
    """(seconds, greatest KiB) of one run to /dev/null; None where it failed or took too long."""
    note = '/tmp/bench-note.%d' % os.getpid()
    t = time.perf_counter()
    # the limit is set by timeout(1): python's own waits in steps of up to 50 ms
    p = subprocess.run(['timeout', str(LIMIT), '/usr/bin/time', '-q', '-f', '%M', '-o', note] + words,
                       stdout=subprocess.DEVNULL, stderr=subprocess.DEVNULL, cwd=cwd)
    t = time.perf_counter() - t
    if p.returncode not in (0, 1):
        return None
    with open(note) as f:
        return t, int(f.read().split()[-1])

def race(runs, repeats):
    """runs: name -> words.  Least time of each, taken in turn so that all meet the same noise."""
    best = {}
    for _ in range(repeats):
        for name, words in runs.items():
            if name in best and best[name] is None:
                continue
            r = once(words)
            if r is None:
                best[name] = None
            elif name not in best or r[0] < best[name][0]:
                best[name] = r
    return best

def digest(words):
    try:
        return hashlib.sha256(subprocess.run(words, stdout=subprocess.PIPE, stderr=subprocess.DEVNULL, timeout=LIMIT).stdout).hexdigest()
    except subprocess.TimeoutExpired:
        return 'timeout'

def main():
    lytab, d, sizes, repeats, here = sys.argv[1:6]
    corpus = sys.argv[6] if len(sys.argv) > 6 else None
    repeats = int(repeats)
    have = lytab != '-' and os.access(lytab, os.X_OK)
    if not have:
        print('(no lytab program: the peers alone)\n')
    wrong = []
    peers = ['ref-bison', 'ref-bison-full', 'ref-byacc', 'ref-re2c']
    tables = {}
    for l in ('calc', 'json', 'csub'):
        tables[l] = '%s/%s.tables' % (d, l)
        if have:
            subprocess.run([lytab, 'build', '%s/%s.l' % (here, l), '%s/%s.y' % (here, l), tables[l]],
                           stdout=subprocess.DEVNULL, check=False)
    print('MB/s is 10^6 bytes of text a second; least time of %d; ratio is lytab / ref-bison.\n' % repeats)
    print('ref-bison: flex (default tables) and bison; -full: flex -Cfe; ref-byacc: flex and byacc; ref-re2c: re2c and lemon, over a text that is read whole; all gcc -O2.\n')
    print('| Text | MB | work | ' + ' | '.join('%s s | MB/s | MB held' % p for p in peers) + ' | lytab s | MB/s | MB held | ratio |')
    print('|---' * (3 + 3 * len(peers) + 4) + '|')
    for l in ('calc', 'json', 'csub'):
        for s in sizes.split(','):
            text = '%s/%s.%s.txt' % (d, l, s)
            mb = os.path.getsize(text) / 1e6
            for work, mode in (('scan, no output', 'n'), ('scan', 'tokens'), ('parse, no output', 'q'), ('parse', 'parse')):
                runs = {p: ['%s/%s/%s' % (d, l, p), mode, text] for p in peers if os.access('%s/%s/%s' % (d, l, p), os.X_OK)}
                mine = None
                if have and mode == 'tokens':
                    mine = [lytab, 'tokens', '%s/%s.l' % (here, l), text]
                elif have and mode == 'parse':
                    mine = [lytab, 'run', tables[l], text]
                if mine:
                    runs['lytab'] = mine
                    if digest(mine) != digest(runs['ref-bison']):
                        wrong.append('%s %s %s' % (l, s, work))
                best = race(runs, repeats)
                cells = []
                for p in peers + ['lytab']:
                    r = best.get(p)
                    cells.append('%.3f | %.0f | %.0f' % (r[0], mb / r[0], r[1] / 1024) if r else '- | - | -')
                ratio = '%.2f' % (best['lytab'][0] / best['ref-bison'][0]) if best.get('lytab') and best.get('ref-bison') else '-'
                print('| %s | %s | %s | %s | %s |' % (l, s, work, ' | '.join(cells), ratio))
                sys.stdout.flush()
    print('\nGeneration, seconds (least of %d) and MB held; ratio is lytab / (flex + bison).\n' % repeats)
    print('| Pair | flex s | bison s | MB | byacc s | MB | lytab build s | MB | ratio |')
    print('|---|---|---|---|---|---|---|---|---|')
    pairs = [(l, '%s/%s.l' % (here, l), '%s/%s.y' % (here, l)) for l in ('calc', 'json', 'csub')]
    if corpus:
        folder = corpus + '/lytab'
        for n in sorted(os.listdir(folder), key=lambda n: os.path.getsize(folder + '/' + n)):
            if n.endswith('.y'):
                lex = folder + '/' + n[:-2] + '.l'
                if not os.path.exists(lex):
                    lex = here + '/none.l'
                pairs.append((n[:-2], lex, folder + '/' + n))
    out = d + '/gen'
    os.makedirs(out, exist_ok=True)
    for name, lex, yacc in pairs:
        runs = {'flex': ['flex', '-X', '-o', out + '/l.c', lex],
                'bison': ['bison', '-Wno-all', '-o', out + '/b.c', yacc],
                'byacc': ['byacc', '-o', out + '/y.c', yacc]}
        if have:
            runs['lytab'] = [lytab, 'build', lex, yacc, out + '/t']
        best = race(runs, repeats)
        def cell(p, both=True):
            r = best.get(p)
            if not r:
                return '- | -' if both else '-'
            return '%.3f | %.1f' % (r[0], r[1] / 1024) if both else '%.3f' % r[0]
        ratio = '-'
        if all(best.get(p) for p in ('flex', 'bison', 'lytab')):
            ratio = '%.2f' % (best['lytab'][0] / (best['flex'][0] + best['bison'][0]))
        print('| %s | %s | %s | %s | %s | %s |' % (name, cell('flex', False), cell('bison'), cell('byacc'), cell('lytab'), ratio))
        sys.stdout.flush()
    for w in wrong:
        print('\nDIFFERS from the peer: ' + w)
    sys.exit(1 if wrong else 0)

main()
