"""Runs `lytab explain --yacc` on a bison grammar, and prints its output with the path and the places of that file."""
import json
import os
import re
import shutil
import subprocess
import sys
import tempfile

COUNTS = re.compile(rb"^Conflicts: (\d+) shift/reduce, (\d+) reduce/reduce\.|"
                    rb'"counts":\{"shift_reduce":(\d+),"reduce_reduce":(\d+)', re.MULTILINE)


# a finding whose source line and caret follow, in the text for MADE
EXCERPT = rb"(?m)^MADE:(\d+):(\d+): (.*)\n    .*\n    [ \t]*\^$"
SPAN = re.compile(rb'"start":\[\d+,(\d+),(\d+)\],"end":\[\d+,\d+,(\d+)\]')
WORD = re.compile(r'"(?:\\.|[^"\\\n])*"|\'(?:\\.|[^\'\\\n])*\'|%?[A-Za-z0-9_.-]+|.?')
# the most bytes of a source line that lytab prints
WIDEST = 160


class NoProgram(Exception):
    """There is no lytab to run."""


def program(tool):
    """The path of lytab: beside the tool, on the PATH, or as the environment variable LYTAB says."""
    beside = os.path.join(os.path.dirname(os.path.realpath(tool)), "lytab")
    found = beside if os.access(beside, os.X_OK) else shutil.which("lytab") or os.environ.get("LYTAB")
    if not found:
        raise NoProgram("there is no lytab beside this tool or on the PATH: set LYTAB to its path")
    return found


class Shown:
    """The places of a bison file in place of those of the yacc file that is made of it."""

    def __init__(self, alone, made, path):
        self.alone, self.made, self.path = alone, made.encode(), os.fsencode(path)
        # (as lytab writes a string of JSON)
        self.json_path = json.dumps(path, ensure_ascii=False)[1:-1].encode(errors="surrogateescape")
        self.here, self.file = re.escape(self.made), alone.grammar.file

    def place(self, line, column):
        """The place in the bison file of a place in the yacc file: that of the word there, or of the one before it."""
        words = self.alone.page.places
        if (line, column) in words:
            return words[line, column]
        before = max((it for it in words if it[0] == line and it[1] <= column), default=None)
        return (words[before][0], words[before][1] + column - before[1]) if before else (line, column)

    def source_line(self, line, column):
        """A line of the bison file as lytab shows it, and a caret under a column."""
        lines = self.file.text.encode("latin-1").split(b"\n")
        given = lines[line - 1] if line <= len(lines) else b""
        given = given[:-1] if given.endswith(b"\r") else given
        start = min(max(column - 1 - WIDEST // 2, 0), len(given)) if len(given) > WIDEST else 0
        shown = bytes(it if it in b"\t" or it >= 32 and it != 127 else 63 for it in given[start : start + WIDEST])
        before = b"".join(b"\t" if it in b"\t" else b"" if 128 <= it < 192 else b" " for it in shown[: column - 1 - start])
        dots = b"..." if start else b"", b"..." if len(given) - start > WIDEST else b""
        return b"    %s%s%s\n    %s%s^" % (dots[0], shown, dots[1], b"   " if start else b"", before)

    def text(self, said):
        """Text with the bison file's path, places and source lines."""
        def excerpt(found):
            line, column = self.place(int(found[1]), int(found[2]))
            return b"%s:%d:%d: %s\n%s" % (self.path, line, column, found[3], self.source_line(line, column))

        def place(found):
            return b"%s:%d:%d" % (self.path, *self.place(int(found[1]), int(found[2])))

        def line_of_rule(found):
            return b"%s%s:%d:" % (found[1], self.path, self.alone.rules[int(found[2]) - 1][0])

        said = re.sub(EXCERPT.replace(b"MADE", self.here), excerpt, said)
        said = re.sub(self.here + rb":(\d+):(\d+)", place, said)
        said = re.sub(rb"(?m)^( +(\d+)  )" + self.here + rb":\d+:", line_of_rule, said)
        return said.replace(self.made, self.path)

    def json(self, said):
        """A line of JSON with the bison file's path and places."""
        def place(found):
            line, column = self.place(int(found[1]), int(found[2]))
            return b'"file":"%s","line":%d,"column":%d' % (self.json_path, line, column)

        def span(found):
            line, column = self.place(int(found[1]), int(found[2]))
            offset = self.file.offset(line, column)
            length = len(WORD.match(self.file.text, offset)[0])
            ends = offset, line, column, offset + length, line, column + length
            return b'"start":[%d,%d,%d],"end":[%d,%d,%d]' % ends

        said = SPAN.sub(span, said)
        said = re.sub(rb'"file":"' + self.here + rb'","line":(\d+),"column":(\d+)', place, said)
        return said.replace(self.made, self.json_path)


def expected(grammar):
    """The counts of conflicts that %expect and %expect-rr allow; None if there is neither."""
    if not grammar.expected:
        return None
    return tuple(grammar.expected.get(it, (0, 0))[0] for it in ("%expect", "%expect-rr"))


def differs(grammar, said, wanted):
    """Compares the counts of conflicts with those of %expect and %expect-rr, and reports on standard error if they
    differ. If reduce/reduce conflicts are expected, the sums are compared: of a shift and two rules before one token
    bison counts a conflict of each kind, and lytab two shift/reduce conflicts."""
    found = COUNTS.search(said)
    counts = tuple(int(it) for it in found.groups() if it is not None) if found else wanted
    if counts == wanted or (wanted[1] and sum(counts) == sum(wanted)):
        return False
    words = " and ".join(f"{word} {number}" for word, (number, _) in grammar.expected.items())
    line = min(line for _, line in grammar.expected.values())
    print(f"{grammar.notes.path}:{line}: {words}: expected {wanted[0]} shift/reduce and {wanted[1]} reduce/reduce "
          f"conflicts, found {counts[0]} and {counts[1]}", file=sys.stderr)
    return True


def explain(tool, grammar, alone, options):
    """Explains a grammar, and returns the exit status of `lytab explain`; 1 also if %expect-rr says another count."""
    path = grammar.notes.path
    wanted = None if any(it == "--expect" or it.startswith("--expect=") for it in options) else expected(grammar)
    if wanted and wanted[1] == 0:
        options = [*options, "--expect", str(wanted[0])]
    elif wanted:
        line = grammar.expected["%expect-rr"][1]
        print(f"{path}:{line}: explain has no option for %expect-rr {wanted[1]}: the sum of the conflicts is compared "
              f"with {sum(wanted)}", file=sys.stderr)
    with tempfile.TemporaryDirectory(prefix="from-bison-") as folder:
        made = os.path.join(folder, "grammar.y")
        with open(made, "w", encoding="latin-1", newline="") as file:
            file.write(alone.page.text())
        ran = subprocess.run([program(tool), "explain", "--yacc", made, *options], stdin=subprocess.DEVNULL,
                             stdout=subprocess.PIPE, stderr=subprocess.PIPE)
    shown = Shown(alone, made, path)
    said = shown.json(ran.stdout) if ran.stdout.startswith(b"{") else shown.text(ran.stdout)
    sys.stdout.flush()
    sys.stdout.buffer.write(said)
    sys.stdout.buffer.flush()
    sys.stderr.buffer.write(shown.text(ran.stderr))
    sys.stderr.flush()
    if wanted and ran.returncode in (0, 1) and differs(grammar, ran.stdout, wanted):
        return 1
    return ran.returncode
