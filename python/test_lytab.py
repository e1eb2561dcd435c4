"""Tests of lytab.py: by hand, and beside examples/drivers/lydrive.py, a driver that was written apart from lytab, and
tools/expected_tables, which works out table files apart.

    python3 -m unittest discover python

runs them over the library that lytab.py finds. The environment may say which by LYTAB_LIBRARY.
"""
import base64
import contextlib
import copy
import ctypes
import gc
import html
import importlib.util
import io
import itertools
import json
import os
import pathlib
import pickle
import random
import re
import shutil
import subprocess
import sys
import tempfile
import textwrap
import threading
import time
import unittest
import urllib.parse
from bisect import bisect_right
from unittest import mock

TOP = pathlib.Path(__file__).resolve().parent.parent
sys.path[:0] = [str(TOP / "python"), str(TOP / "examples/drivers")]
import lydrive
import lytab


def example(name):
    return (TOP / "examples" / name).read_bytes()


def tables_of(name):
    return lytab.Tables.build(example(f"{name}.l"), example(f"{name}.y"))


class Calculator(unittest.TestCase):
    """Answers by the calculator's tables, worked out by hand."""

    @classmethod
    def setUpClass(cls):
        cls.tables = tables_of("calc")

    def parts(self, text):
        kinds = {lytab.Node: lambda it: (it.name, len(it.children), it.start, it.end),
                 lytab.Token: lambda it: (it.name, it.text, it.start, it.end), type(None): lambda it: it}
        return [kinds[type(it)](it) for it in lytab.walk(self.tables.parse(text))]

    def test_names(self):
        wanted = "$end $undef NUMBER '+' '-' '*' '/' NEGATED '^' ';' '(' ')'".split()
        self.assertEqual(list(self.tables.terminals), wanted)
        wanted = ["", "Sheet", "Add", "Subtract", "Multiply", "Divide", "Power", "Negate", "", ""]
        self.assertEqual(list(self.tables.rules), wanted)
        self.assertEqual(self.tables.conflicts, (0, 0))

    def test_a_tree_with_places(self):
        wanted = [("Sheet", 2, 0, 11), ("Sheet", 2, 0, 2), None, ("NUMBER", b"5", 0, 1), ("Add", 2, 4, 9),
                  ("NUMBER", b"1", 4, 5), ("NUMBER", b"2", 8, 9)]
        self.assertEqual(self.parts(b"5; (1 + 2);"), wanted)

    def test_children(self):
        tree = self.tables.parse(b"(1 + 2) * 3;")
        nothing, product = tree.children
        sum_, three = product.children
        self.assertIsNone(nothing)
        self.assertEqual([it.text for it in sum_.children], [b"1", b"2"])
        self.assertEqual((sum_.name, three.text), ("Add", b"3"))

    def test_nothing(self):
        self.assertIsNone(self.tables.parse(b""))

    def test_a_refused_token(self):
        with self.assertRaises(lytab.SyntaxFault) as raised:
            self.tables.parse(b"1;\n1 + * 3;")
        fault = raised.exception
        self.assertEqual((fault.number, fault.offset, fault.line, fault.column), (5, 7, 2, 5))
        self.assertEqual((fault.name, fault.text, fault.expected), ("'*'", b"*", ("NUMBER", "'-'", "'('")))
        self.assertEqual(str(fault), "2:5: unexpected '*' b'*'; expected: NUMBER '-' '('")

    def test_a_refused_end(self):
        with self.assertRaises(lytab.SyntaxFault) as raised:
            self.tables.parse(b"1 +")
        fault = raised.exception
        self.assertEqual((fault.number, fault.offset, fault.line, fault.column), (3, 3, 1, 4))
        self.assertEqual((fault.name, fault.text, fault.expected), ("$end", b"", ("NUMBER", "'-'", "'('")))
        self.assertEqual(str(fault), "1:4: unexpected end of the text; expected: NUMBER '-' '('")

    def test_an_unmatched_byte(self):
        with self.assertRaises(lytab.SyntaxFault) as raised:
            self.tables.parse(b"1\n @")
        fault = raised.exception
        self.assertEqual((fault.number, fault.offset, fault.line, fault.column), (0, 3, 2, 2))
        self.assertEqual((fault.name, fault.text, fault.expected), (None, b"@", ()))
        self.assertEqual(str(fault), "2:2: no rule matches b'@'")

    def test_answers(self):
        self.assertEqual(self.tables.answer(b"1;"), b'Sheet((),NUMBER"1")\n')
        wanted = b"syntax error at token 3, byte 4: '*'\"*\"\nexpected: NUMBER '-' '('\n"
        self.assertEqual(self.tables.answer(b"1 + * 3;"), wanted)
        self.assertEqual(json.loads(self.tables.json(b"1 @")), {"error": "unmatched", "byte": 2})

    def test_an_answer_that_needs_more_room(self):
        names = "NodeOfALongName" * 16
        tables = lytab.Tables.build(b"%%\nx return 'x';\n", f"%%\ns : s 'x' {{ $$ = {names}($1); }} | ;".encode())
        self.assertEqual(tables.answer(b"x" * 900), f"{names}(".encode() * 900 + b"()" + b")" * 900 + b"\n")
        self.assertEqual([it and it.start for it in lytab.walk(tables.parse(b"x" * 900))], [0] * 900 + [None])

    def test_names_that_need_more_room(self):
        names = [f"TERMINAL_{number}_{'X' * 40}" for number in range(300)]
        lex = "%%\n" + "".join(f"t{number}/x return {name};\n" for number, name in enumerate(names))
        yacc = f"%token {' '.join(names)}\n%%\ns : {' | '.join(names)} ;\n"
        tables = lytab.Tables.build(lex.encode(), yacc.encode())
        self.assertEqual(tables.terminals, ("$end", "$undef", *names))
        self.assertEqual(tables.rules, ("",) * 300)

    def test_depth_is_no_limit(self):
        depth = 300_000
        tree = self.tables.parse(b"-" * depth + b"1;")
        count = sum(1 for it in tree.walk() if isinstance(it, lytab.Node) and it.name == "Negate")
        self.assertEqual(count, depth)

    def test_located(self):
        text = b"ab\n\ncde"
        found = [lytab.locate(text, byte) for byte in (0, 2, 3, 4, 6, 7, 99)]
        self.assertEqual(found, [(1, 1), (1, 3), (2, 1), (3, 1), (3, 3), (3, 4), (3, 4)])


class Written(unittest.TestCase):
    """What `str` and `repr` return, worked out by hand."""

    def test_parts(self):
        tree = tables_of("calc").parse(b"5; (1 + 2);")
        found = [repr(it) for it in tree.walk()]
        wanted = ["Node('Sheet', [2 children], 0, 11)", "Node('Sheet', [2 children], 0, 2)", "None",
                  "Token('NUMBER', b'5', 0, 1)", "Node('Add', [2 children], 4, 9)", "Token('NUMBER', b'1', 4, 5)",
                  "Token('NUMBER', b'2', 8, 9)"]
        self.assertEqual(found, wanted)

    def test_errors(self):
        expected = ("NUMBER", "'-'")
        for error, text, form in (
            (lytab.TableFault(84, 3), "tables: fault 84, section 3", "TableFault(84, 3)"),
            (lytab.TableFault(82, 0), "tables: fault 82", "TableFault(82, 0)"),
            (lytab.BuildFault(35, "yacc", 4, 17), "yacc:4:17: fault 35", "BuildFault(35, 'yacc', 4, 17)"),
            (lytab.BuildFault(24, "lex", 3, 10), "lex:3:10: fault 24", "BuildFault(24, 'lex', 3, 10)"),
            (lytab.BuildFault(46, "yacc", 1, 1), "yacc:1:1: fault 46", "BuildFault(46, 'yacc', 1, 1)"),
            (lytab.BuildFault(40, None, 0, 0), "fault 40", "BuildFault(40, None, 0, 0)"),
            (lytab.SyntaxFault(0, 3, 2, 2, None, b"@", ()), "2:2: no rule matches b'@'",
             "SyntaxFault(0, 3, 2, 2, None, b'@', ())"),
            (lytab.SyntaxFault(2, 1, 1, 2, "A", b"a'", ()), "1:2: unexpected A b\"a'\"",
             "SyntaxFault(2, 1, 1, 2, 'A', b\"a'\", ())"),
            (lytab.SyntaxFault(3, 3, 1, 4, "$end", b"", expected),
             "1:4: unexpected end of the text; expected: NUMBER '-'",
             "SyntaxFault(3, 3, 1, 4, '$end', b'', ('NUMBER', \"'-'\"))"),
        ):
            self.assertEqual((str(error), repr(error)), (text, form))
            self.assertIsInstance(error, ValueError)
            again = pickle.loads(pickle.dumps(error))
            self.assertEqual((type(again), again.args, vars(again)), (type(error), error.args, vars(error)))


class FakeLibrary:
    """In place of the C library: each call returns a status of its own."""

    CALLS = ("answer", "json", "parse", "parse_all", "parse_tokens", "names", "build", "locate")

    def __init__(self, status=0, version=lytab.VERSION):
        for name in self.CALLS:
            setattr(self, f"lytab_{name}", self.returning(status))
        self.lytab_version = self.returning(version)

    @staticmethod
    def returning(value):
        return lambda *_: value


class Library(unittest.TestCase):
    """Which library is loaded, and what its statuses raise."""

    def loaded(self, module, environment):
        """The path that a module loads its library from."""
        with mock.patch.dict(os.environ), mock.patch.object(ctypes, "CDLL", return_value=FakeLibrary()) as load:
            os.environ.pop("LYTAB_LIBRARY", None)
            os.environ.update(environment)
            module._library.__wrapped__()
        (path,), _ = load.call_args
        return path

    def installed(self, folder):
        """The module, as a copy in a folder."""
        folder.mkdir(parents=True)
        shutil.copy(lytab.__file__, folder)
        specification = importlib.util.spec_from_file_location("lytab_copy", folder / "lytab.py")
        module = importlib.util.module_from_spec(specification)
        specification.loader.exec_module(module)
        return module

    def test_the_path(self):
        with tempfile.TemporaryDirectory() as room:
            top = pathlib.Path(room).resolve()
            module = self.installed(top / "usr/share/lytab/python")
            self.assertEqual(self.loaded(module, {}), "liblytab.so.1")
            (top / "lib").mkdir()
            (top / "lib/liblytab.so.1").touch()
            self.assertEqual(self.loaded(module, {}), str(top / "lib/liblytab.so.1"))
            (top / "usr/lib/liblytab.so.1").mkdir(parents=True)
            self.assertEqual(self.loaded(module, {}), str(top / "lib/liblytab.so.1"))
            (top / "usr/lib/liblytab.so.1").rmdir()
            (top / "usr/lib/liblytab.so.1").touch()
            self.assertEqual(self.loaded(module, {}), str(top / "usr/lib/liblytab.so.1"))
            self.assertEqual(self.loaded(module, {"LYTAB_LIBRARY": ""}), str(top / "usr/lib/liblytab.so.1"))
            self.assertEqual(self.loaded(module, {"LYTAB_LIBRARY": "/a/b.so"}), "/a/b.so")

    def test_the_version(self):
        for version in (0, 2, 257):
            with mock.patch.dict(os.environ, {"LYTAB_LIBRARY": "/a/b.so"}):
                with mock.patch.object(ctypes, "CDLL", return_value=FakeLibrary(version=version)):
                    with self.assertRaises(ImportError) as raised:
                        lytab._library.__wrapped__()
            wanted = f"/a/b.so has version {version} of the calls, and this file needs 1"
            self.assertEqual(str(raised.exception), wanted)

    def test_loaded_once(self):
        self.assertIs(lytab._library(), lytab._library())

    def calls(self, tables):
        """Each call that has a status."""
        return [
            lambda: lytab.Tables(tables.bytes), lambda: lytab.Tables.build(b"", b""), lambda: tables.answer(b"1;"),
            lambda: tables.json(b"1;"), lambda: tables.parse(b"1;"), lambda: tables.parse_all([b"1;"]),
            lambda: tables.parse_tokens(b"1;", [("NUMBER", 0, 1)]),
        ]

    def raised(self, status, error):
        """The texts of what each call raises for a status."""
        texts = set()
        for call in self.calls(tables_of("calc")):
            with mock.patch.object(lytab, "_library", lambda: FakeLibrary(status)):
                with self.assertRaises(error) as raised:
                    call()
            texts.add(str(raised.exception))
        return texts

    def test_out_of_memory(self):
        self.assertEqual(self.raised(3, MemoryError), {"lytab: out of memory"})

    def test_other_statuses(self):
        self.assertEqual(self.raised(4, RuntimeError), {"lytab: status 4"})
        self.assertEqual(self.raised(6, RuntimeError), {"lytab: status 6"})

    def test_an_error_of_the_tables(self):
        self.assertEqual(self.raised(2, (lytab.TableFault, lytab.BuildFault)), {"tables: fault 0", "fault 0"})


class Bytes(unittest.TestCase):
    """Bytes that a text or a table file may have, NULs and bytes above 127 among them."""

    LEX = b"%%\n[\\0-\\x1f]+ return LOW;\n[\\x80-\\xff]+ return HIGH;\n"
    YACC = b"%token LOW HIGH\n%%\ns : LOW { $$ = Low($1); } | HIGH LOW { $$ = Both($1,$2); } ;\n"

    @classmethod
    def setUpClass(cls):
        cls.tables = lytab.Tables.build(cls.LEX, cls.YACC)

    def test_nuls_at_the_end(self):
        tree = self.tables.parse(b"\0\0\0")
        self.assertEqual((tree.end, tree.children[0].text), (3, b"\0\0\0"))
        self.assertEqual(self.tables.answer(b"\1\0\0"), b'Low(LOW"\\x01\\x00\\x00")\n')
        self.assertEqual(self.tables.json(b"\0"), b'{"node":"Low","children":[{"token":"LOW","text":"\\u0000"}]}\n')
        one, two, nothing = self.tables.parse_all([b"\xff\0\0", b"\0", b""])
        self.assertEqual([it.text for it in one.children], [b"\xff", b"\0\0"])
        self.assertEqual((two.children[0].text, nothing.offset), (b"\0", 0))
        self.assertEqual(self.tables.parse_tokens(b"\0\0", [("LOW", 1, 2)]).children[0].text, b"\0")
        self.assertEqual(lytab.locate(b"\n\0\0", 3), (2, 3))

    def test_a_refused_nul(self):
        with self.assertRaises(lytab.SyntaxFault) as raised:
            self.tables.parse(b"\0\xfe\0")
        fault = raised.exception
        self.assertEqual((fault.number, fault.name, fault.text, fault.expected), (2, "HIGH", b"\xfe", ("$end",)))

    def test_a_table_file_that_ends_in_nuls(self):
        # Of the gotos only state 0 has one, so the last number of the file, the row of the last slot, is 0.
        tables = lytab.Tables.build(b"%%\nx return 'x';\n", b"%%\ns : 'x' ;\n")
        self.assertEqual(tables.bytes[-4:], bytes(4))
        self.assertEqual(lytab.Tables(tables.bytes).answer(b"x"), b"'x'\"x\"\n")

    def test_names_of_any_bytes(self):
        # In a name each byte is the character with its number, as in the JSON of docs/trees.md.
        file = self.tables.bytes.replace(b"LOW", b"L\xc3\xa9").replace(b"Both", b"B\xff\0\0")
        tables = lytab.Tables(file)
        self.assertEqual(tables.terminals, ("$end", "$undef", "L\xc3\xa9", "HIGH"))
        self.assertEqual(tables.rules, ("Low", "B\xff\0\0"))
        tree = tables.parse(b"\x80\0")
        self.assertEqual((tree.name, tree.children[1].name), ("B\xff\0\0", "L\xc3\xa9"))
        self.assertEqual(tables.parse_tokens(b"x", [("L\xc3\xa9", 0, 1)]).name, "Low")

    def test_kinds_of_bytes(self):
        for kind in (bytearray, memoryview):
            tables = lytab.Tables(kind(self.tables.bytes))
            self.assertEqual((tables.bytes, tables.conflicts), (self.tables.bytes, None))
            self.assertIsInstance(tables.bytes, bytes)
            self.assertEqual(lytab.Tables.build(kind(self.LEX), kind(self.YACC)).bytes, self.tables.bytes)
            self.assertEqual(repr(tables.parse(kind(b"\0"))), "Node('Low', [1 children], 0, 1)")
            self.assertEqual(tables.answer(kind(b"\0")), b'Low(LOW"\\x00")\n')
            self.assertEqual(repr(tables.parse_all([kind(b"\0")])), "[Node('Low', [1 children], 0, 1)]")
            self.assertEqual(tables.parse_tokens(kind(b"ab"), [("LOW", 0, 2)]).children[0].text, b"ab")


class FaultyTables(unittest.TestCase):
    """Tables that are faulty on some texts: the goto of the start symbol is removed, so each reduction fails."""

    @classmethod
    def setUpClass(cls):
        file = lytab.Tables.build(b"%%\nx return 'x';\n", b"%%\ns : 'x' { $$ = N($1); } ;\n").bytes
        # The file ends in the rows of gotos: their length 1, an entry and its row. There is nothing behind length 0.
        cls.tables = lytab.Tables(file[:-12] + bytes(4))

    def test_alone(self):
        calls = [self.tables.parse, self.tables.answer, self.tables.json,
                 lambda text: self.tables.parse_tokens(text, [("'x'", 0, 1)])]
        for call in calls:
            with self.assertRaises(lytab.TableFault) as raised:
                call(b"x")
            self.assertEqual((raised.exception.number, raised.exception.section), (90, 0))
            self.assertEqual(str(raised.exception), "tables: fault 90")

    def test_among_many(self):
        said = self.tables.parse_all([b"", b"x", b"y", b"x", b""])
        empty = "SyntaxFault(1, 0, 1, 1, '$end', b'', (\"'x'\",))"
        wanted = [empty, "TableFault(90, 0)", "SyntaxFault(0, 0, 1, 1, None, b'y', ())", "TableFault(90, 0)", empty]
        self.assertEqual([repr(one) for one in said], wanted)


class ManyTexts(unittest.TestCase):
    """Many texts at a time, beside each alone, and tokens; worked out by hand."""

    @classmethod
    def setUpClass(cls):
        cls.tables = tables_of("calc")

    def test_each_as_alone(self):
        texts = [b"1;", b"", b"1 + * 3;", b"5; (1 + 2);", b"@", b"2 *"] * 40
        said = self.tables.parse_all(texts)
        self.assertEqual(len(said), len(texts))
        for text, one in zip(texts, said):
            try:
                wanted = repr(self.tables.parse(text))
            except lytab.SyntaxFault as fault:
                wanted = repr(fault)
            self.assertEqual(repr(one), wanted)

    def test_by_hand(self):
        tree, refused, nothing = self.tables.parse_all([b"1;", b"1 + * 3;", b""])
        self.assertEqual((tree.name, tree.start, tree.end, tree.children[1].text), ("Sheet", 0, 2, b"1"))
        self.assertEqual((refused.number, refused.offset, refused.name), (3, 4, "'*'"))
        self.assertEqual(refused.expected, ("NUMBER", "'-'", "'('"))
        self.assertIsNone(nothing)
        self.assertEqual(self.tables.parse_all([]), [])

    def test_more_expected_than_room(self):
        said = self.tables.parse_all([b"1" for _ in range(100)])
        self.assertEqual({one.expected for one in said}, {tuple("'+' '-' '*' '/' '^' ';'".split())})

    def test_more_parts_than_room(self):
        # Six parts for each byte: a node over four empty nodes, and the token.
        tables = lytab.Tables.build(b"%%\nx return 'x';\n", b"""%%
            s : { $$ = E(); } | s e e e e 'x' { $$ = N($1,$2,$3,$4,$5,$6); } ;
            e : { $$ = E(); } ;""")
        texts = [b"x" * 200, b"xy", b"", b"x" * 100]
        for said, text in zip(tables.parse_all(texts), texts):
            if text == b"xy":
                self.assertEqual(repr(said), "SyntaxFault(0, 1, 1, 2, None, b'y', ())")
            else:
                self.assertEqual(sum(1 for _ in said.walk()), 6 * len(text) + 1)
                self.assertEqual(repr(list(said.walk())), repr(list(tables.parse(text).walk())))

    def test_tokens(self):
        tokens = [("NUMBER", 0, 3), ("'+'", 4, 8), ("NUMBER", 9, 12), (9, 12, 12)]
        tree = self.tables.parse_tokens(b"one plus two", tokens)
        sum_ = tree.children[1]
        self.assertEqual((tree.name, tree.start, tree.end), ("Sheet", 0, 12))
        self.assertEqual((sum_.name, [it.text for it in sum_.children]), ("Add", [b"one", b"two"]))
        self.assertIsNone(self.tables.parse_tokens(b"one", []))

    def test_refused_tokens(self):
        with self.assertRaises(lytab.SyntaxFault) as raised:
            self.tables.parse_tokens(b"one plus times", [("NUMBER", 0, 3), ("'+'", 4, 8), ("'*'", 9, 14)])
        fault = raised.exception
        self.assertEqual((fault.number, fault.offset, fault.column, fault.text), (3, 9, 10, b"times"))
        self.assertEqual(fault.expected, ("NUMBER", "'-'", "'('"))

    def test_a_refused_token_without_bytes(self):
        with self.assertRaises(lytab.SyntaxFault) as raised:
            self.tables.parse_tokens(b"one plus ", [("NUMBER", 0, 3), ("'+'", 4, 8), ("'*'", 9, 9)])
        self.assertEqual(str(raised.exception), "1:10: unexpected '*' b''; expected: NUMBER '-' '('")

    def test_no_tokens(self):
        for token in (("WORD", 0, 1), (0, 0, 1), (12, 0, 1), ("NUMBER", 1, 0), ("NUMBER", 0, 4), (-1, 0, 1)):
            with self.assertRaises(ValueError) as raised:
                self.tables.parse_tokens(b"one", [("NUMBER", 0, 3), token])
            self.assertIn("token 2", str(raised.exception))

    def test_what_is_wrong_with_a_token(self):
        for token, what in ((("WORD", 0, 1), "terminal -1, from 0 to 1"), ((3, 2, 1), "terminal 3, from 2 to 1")):
            with self.assertRaises(ValueError) as raised:
                self.tables.parse_tokens(b"one", [token])
            self.assertEqual(str(raised.exception), f"token 1 is none: {what}")


def spelled(tree):
    """All that a tree holds, with spans."""
    return [repr(part) for part in lytab.walk(tree)]


class Trees(unittest.TestCase):
    """What nodes and tokens can do, worked out by hand."""

    TEXT = b"5; (1 + 2) * 3;"

    @classmethod
    def setUpClass(cls):
        cls.tables = tables_of("calc")
        cls.tree = cls.tables.parse(cls.TEXT)
        cls.product = cls.tree.children[1]
        cls.sum_ = cls.product.children[0]

    def test_the_text_of_a_node(self):
        self.assertEqual((self.tree.text, self.product.text, self.sum_.text), (self.TEXT, b"(1 + 2) * 3", b"1 + 2"))
        said = self.tables.parse_all([b"1;", b" 2 - 1 ; "])[1]
        self.assertEqual((said.text, said.children[1].text), (b"2 - 1 ;", b"2 - 1"))
        with self.assertRaises(ValueError) as raised:
            lytab.Node("Add", [], 0, 0).text
        self.assertEqual(str(raised.exception), "the node Add was made without its text")
        self.assertEqual(lytab.Node("Add", [], 1, 3, b"abcd").text, b"bc")

    def test_walks(self):
        names = [getattr(part, "name", None) for part in self.tree.walk()]
        self.assertEqual(names, ["Sheet", "Sheet", None, "NUMBER", "Multiply", "Add", "NUMBER", "NUMBER", "NUMBER"])
        self.assertEqual(spelled(self.tree), [repr(part) for part in self.tree.walk("pre")])
        names = [getattr(part, "name", None) for part in self.tree.walk(order="post")]
        self.assertEqual(names, [None, "NUMBER", "Sheet", "NUMBER", "NUMBER", "Add", "NUMBER", "Multiply", "Sheet"])
        for part in (None, lytab.Token("A", b"a", 0, 1), lytab.Node("N", [], 0, 0)):
            for order in ("pre", "post"):
                self.assertEqual([id(it) for it in lytab.walk(part, order)], [id(part)])

    def test_no_order(self):
        for walk in (self.tree.walk, lambda order: lytab.walk(None, order)):
            with self.assertRaises(ValueError) as raised:
                walk("in")
            self.assertEqual(str(raised.exception), "the order must be \"pre\" or \"post\", not 'in'")

    def test_equal_trees(self):
        for same in (b"5;(1+2)*3;", b"\n5 ; ((1) + 2) * (3) ;", self.TEXT):
            self.assertTrue(self.tree == self.tables.parse(same), same)
            self.assertFalse(self.tree != self.tables.parse(same), same)
        for other in (b"5; (1 + 2) * 4;", b"5; (1 - 2) * 3;", b"5; 1 + 2 * 3;", b"(1 + 2) * 3;", b"5; 1;", b""):
            self.assertFalse(self.tree == self.tables.parse(other), other)
            self.assertTrue(self.tree != self.tables.parse(other), other)
        self.assertNotEqual(self.tree, [])
        self.assertNotEqual(self.tree, None)

    def test_equal_by_hand(self):
        def add(*children, name="Add"):
            return lytab.Node(name, list(children), 0, 0)

        one, two = lytab.Token("NUMBER", b"1", 7, 9), lytab.Token("NUMBER", b"2", 0, 0)
        self.assertEqual(self.sum_, add(one, two))
        for other in (add(two, one), add(one), add(one, two, None), add(one, None), add(one, two, name="Subtract"),
                      add(one, add(two)), add(one, lytab.Token("WORD", b"2", 0, 0)), add(), add(one, b"2")):
            self.assertNotEqual(self.sum_, other)
            self.assertNotEqual(other, self.sum_)
        self.assertEqual(one, lytab.Token("NUMBER", b"1", 0, 1))
        self.assertNotEqual(one, two)
        self.assertNotEqual(one, lytab.Token("WORD", b"1", 7, 9))
        self.assertNotEqual(one, add())
        self.assertNotEqual(one, b"1")

    def test_no_keys(self):
        for part in (self.tree, self.tree.children[0].children[1]):
            with self.assertRaises(TypeError):
                {part: 1}

    @unittest.skipIf(sys.version_info < (3, 10), "match needs Python 3.10")
    def test_match(self):
        program = """
            match tree:
                case Node("Sheet", [Node("Sheet", [None, Token("NUMBER", b"5")]), Node("Multiply", (left, right))]):
                    found = left, right
        """
        names = {"tree": self.tree, "Node": lytab.Node, "Token": lytab.Token}
        exec(textwrap.dedent(program), names)
        self.assertIs(names["found"][0], self.sum_)
        self.assertEqual(names["found"][1].text, b"3")
        self.assertEqual(lytab.Node.__match_args__, ("name", "children"))
        self.assertEqual(lytab.Token.__match_args__, ("name", "text"))

    def test_pretty(self):
        wanted = """\
            Sheet
              Sheet
                ()
                NUMBER"5"
              Multiply
                Add
                  NUMBER"1"
                  NUMBER"2"
                NUMBER"3"
            """
        self.assertEqual(self.tree.pretty(), textwrap.dedent(wanted))
        self.assertEqual(lytab.pretty(None), "()\n")
        self.assertEqual(lytab.pretty(lytab.Token("A", b"a\"\\\n\t'\0\xff", 0, 8)), 'A"a\\"\\\\\\n\\t\'\\x00\\xff"\n')
        self.assertEqual(lytab.Node("N", [3, "x"], 0, 0).pretty(), "N\n  3\n  'x'\n")

    def test_copies(self):
        shallow, deep = copy.copy(self.tree), copy.deepcopy(self.tree)
        for made in (shallow, deep, pickle.loads(pickle.dumps(self.tree))):
            self.assertEqual(spelled(made), spelled(self.tree))
            self.assertEqual((made, made.text, made.children[1].text), (self.tree, self.TEXT, b"(1 + 2) * 3"))
            self.assertIsNot(made.children, self.tree.children)
        self.assertIs(shallow.children[1], self.product)
        self.assertIsNot(deep.children[1], self.product)
        deep.children[1].children[0].children.append(None)
        self.assertEqual(len(self.sum_.children), 2)
        twice = copy.deepcopy([self.tree, self.tree])
        self.assertIs(twice[0], twice[1])
        held = lytab.Node("N", [[1], "x", None], 0, 0)
        self.assertEqual(spelled(copy.deepcopy(held)), spelled(held))
        self.assertIsNot(copy.deepcopy(held).children[0], held.children[0])


class InnermostParts(unittest.TestCase):
    """`Node.at`, by hand and beside all parts of the tree."""

    def test_by_hand(self):
        text = b"5; (1 + 2) * 3;"
        tree = tables_of("calc").parse(text)
        wanted = {0: b"5", 1: b"5;", 2: text, 3: b"(1 + 2) * 3", 4: b"1", 5: b"1 + 2", 8: b"2", 9: b"(1 + 2) * 3",
                  13: b"3", 14: text}
        self.assertEqual({byte: tree.at(byte).text for byte in wanted}, wanted)
        self.assertEqual([tree.at(byte) for byte in (-1, len(text), 99)], [None] * 3)
        self.assertIsNone(tree.children[1].at(2))
        self.assertIs(tree.children[1].at(4), tree.children[1].children[0].children[0])

    def beside(self, tree, size):
        for byte in range(-1, size + 2):
            parts = [it for it in tree.walk() if it is not None and it.start <= byte < it.end]
            found = tree.at(byte)
            # (each part of the tree that has the byte lies in the one before)
            self.assertIs(found, parts[-1] if parts else None, byte)

    def test_beside_all_parts(self):
        for name, text in (("calc", "calc.txt"), ("json", "json.txt"), ("c", "c-program.txt")):
            text = example(text)[:3000] if name == "calc" else example(text)
            if name == "calc":
                text = text[: text.rindex(b";") + 1]
            self.beside(tables_of(name).parse(text), len(text))

    def test_children_in_another_order(self):
        tables = lytab.Tables.build(b"%%\n[a-z] return LETTER;\n\\n ;\n", b"""%token LETTER
            %%
            s : l e l l e l { $$ = N($6,$2,$3,$1,$5,$4); } ;
            l : LETTER { $$ = L($1); } ;
            e : ;""")
        tree = tables.parse(b"a\nb\ncd")
        self.assertEqual([it and it.text for it in tree.children], [b"d", None, b"b", b"a", None, b"c"])
        self.beside(tree, 6)

    def test_a_logarithm_of_the_children(self):
        class Counted(list):
            asked = 0

            def __getitem__(self, place):
                self.asked += 1
                return super().__getitem__(place)

            def __iter__(self):
                self.asked += len(self)
                return super().__iter__()

        children = Counted(None if at % 3 == 0 else lytab.Token("A", b"a", 2 * at, 2 * at + 1) for at in range(3_000))
        tree = lytab.Node("N", children, 0, 6_000)
        for at in range(3_000):
            children.asked = 0
            if at % 3:
                self.assertEqual(tree.at(2 * at).start, 2 * at)
                self.assertLess(children.asked, 50)
            else:
                self.assertIs(tree.at(2 * at), tree)


class Lists(unittest.TestCase):
    """`flat`, worked out by hand."""

    LEX = b"%%\n[a-z] return ITEM;\n. return yytext[0];\n"
    LEFT = b"%token ITEM\n%%\nlist : item | list ',' item { $$ = L($1,$3); } ;\n"
    RIGHT = b"%token ITEM\n%%\nlist : item | item ',' list { $$ = L($1,$3); } ;\n"
    ITEM = b"item : ITEM | '(' list ')' { $$ = $2; } ;\n"

    def spelled(self, items, rest):
        """The items, with brackets around those that are lists."""
        return [it.text.decode() if isinstance(it, lytab.Token) else self.spelled(it.flat("L", rest), rest)
                for it in items]

    def test_both_recursions(self):
        for yacc, rest in ((self.LEFT, "first"), (self.RIGHT, "last")):
            tables = lytab.Tables.build(self.LEX, yacc + self.ITEM)
            for text, wanted in ((b"a,b", ["a", "b"]), (b"a,b,c,d", list("abcd"))):
                tree = tables.parse(text)
                self.assertEqual(self.spelled(tree.flat("L"), rest), wanted)
                self.assertEqual(self.spelled(tree.flat("L", rest), rest), wanted)
            (item,) = lytab.flat(tables.parse(b"a"), "L")
            self.assertEqual(item.text, b"a")
            wanted = ["a", ["b", ["c", "d"], "e"], "f"]
            self.assertEqual(self.spelled(tables.parse(b"a,(b,(c,d),e),f").flat("L", rest), rest), wanted)

    def test_items_that_are_lists(self):
        # (Such an item in the place of the rest has the tree of the rest.)
        for yacc, rest, text, wanted in (
            (self.LEFT, "first", b"a,(b,c)", ["a", ["b", "c"]]),
            (self.LEFT, "first", b"(a,b),(c,d)", ["a", "b", ["c", "d"]]),
            (self.RIGHT, "last", b"(a,b),c", [["a", "b"], "c"]),
            (self.RIGHT, "last", b"(a,b),(c,d)", [["a", "b"], "c", "d"]),
        ):
            tree = lytab.Tables.build(self.LEX, yacc + self.ITEM).parse(text)
            self.assertEqual(self.spelled(tree.flat("L", rest), rest), wanted, (text, rest))

    def test_empty_lists(self):
        for rule, constructor in ((b"", b""), (b"{ $$ = L(); }", b"L")):
            for yacc in (b"list : %s | list ITEM { $$ = L($1,$2); } ;", b"list : %s | ITEM list { $$ = L($1,$2); } ;"):
                tables = lytab.Tables.build(self.LEX, b"%token ITEM\n%%\n" + yacc % rule)
                self.assertEqual([it.text for it in lytab.flat(tables.parse(b"abc"), "L")], [b"a", b"b", b"c"])
                self.assertEqual([it.text for it in lytab.flat(tables.parse(b"ab"), "L")], [b"a", b"b"])
                self.assertEqual(lytab.flat(tables.parse(b""), "L"), [])
                rest = "first" if b"list ITEM" in yacc else "last"
                self.assertEqual([it.text for it in lytab.flat(tables.parse(b"a"), "L", rest)], [b"a"])

    def test_empty_items(self):
        def l(*children):
            return lytab.Node("L", list(children), 0, 0)

        a, b, other = (lytab.Token("ITEM", name, 0, 1) for name in (b"a", b"b", b"c"))
        self.assertEqual(l(l(a, None), b).flat("L"), [a, None, b])
        self.assertEqual(l(l(None, a), None).flat("L"), [a, None])
        self.assertEqual(l(None, l(a, l(None, None))).flat("L"), [None, a, None])
        self.assertEqual(l(None, a).flat("L"), [a])
        self.assertEqual(l(a, None).flat("L"), [a])
        self.assertEqual(l(None, a).flat("L", "last"), [None, a])
        self.assertEqual(l(l(a, other, b), other, a).flat("L"), [a, other, b, other, a])
        self.assertEqual(l(a, b).flat("M"), [l(a, b)])
        self.assertEqual(l().flat("L"), [])
        self.assertEqual(lytab.flat(None, "L"), [])

    def test_no_rest(self):
        with self.assertRaises(ValueError) as raised:
            lytab.flat(None, "L", "left")
        self.assertEqual(str(raised.exception), "the rest must be \"first\" or \"last\", not 'left'")


class Calculating(lytab.Transformer):
    """The values of the calculator's sheets, as lists."""

    def nothing(self):
        return []

    def token(self, token):
        return int(token.text)

    def Sheet(self, node, values, value):
        return [*values, value]

    def Negate(self, _, value):
        return -value

    @lytab.constructs("Add", "Subtract", "Multiply", "Power")
    def _operated(self, node, left, right):
        operators = {"Add": int.__add__, "Subtract": int.__sub__, "Multiply": int.__mul__, "Power": int.__pow__}
        return operators[node.name](left, right)


class Transformers(unittest.TestCase):
    """Values of trees, by hand."""

    @classmethod
    def setUpClass(cls):
        cls.tables = tables_of("calc")

    def test_values(self):
        value = Calculating(self.tables).transform
        self.assertEqual(value(self.tables.parse(b"1 + 2 * 3; -2^2; (8 - 3) - -1;")), [7, -4, 6])
        self.assertEqual(value(self.tables.parse(b"")), [])
        self.assertEqual(value(lytab.Token("NUMBER", b"12", 0, 2)), 12)

    def test_default(self):
        tree = self.tables.parse(b"1 + 2; 8 / 2;")
        made = lytab.Transformer(self.tables).transform(tree)
        self.assertEqual((spelled(made), made.text), (spelled(tree), tree.text))
        self.assertIsNot(made, tree)
        halved = Calculating(self.tables).transform(tree)
        three, quotient = halved
        self.assertEqual((three, quotient.name, quotient.children, quotient.text), (3, "Divide", [8, 2], b"8 / 2"))

        class Strict(Calculating):
            def default(self, node, *values):
                raise LookupError(f"{node.name} of {values}")

        with self.assertRaises(LookupError) as raised:
            Strict(self.tables).transform(tree)
        self.assertEqual(str(raised.exception), "Divide of (8, 2)")

    def test_the_page(self):
        page = (TOP / "docs/python.md").read_text()
        (program,) = re.findall(r"^```python\n(class Calculator.*?)^```", page, re.M | re.S)
        said = io.StringIO()
        with contextlib.redirect_stdout(said):
            exec(program, {"lytab": lytab, "tables": tables_of("sums")})
        self.assertEqual(said.getvalue(), "2\n")

    def refused(self, kind):
        with self.assertRaises(ValueError) as raised:
            kind(self.tables)
        return str(raised.exception)

    def test_no_constructors(self):
        class Misspelt(Calculating):
            def Devide(self, node, left, right):
                return left // right

        class Unknown(lytab.Transformer):
            @lytab.constructs("Add", "NUMBER")
            def number(self, node):
                return 1

        class Nameless(lytab.Transformer):
            @lytab.constructs("")
            def nothing_at_all(self, node):
                return 1

        wanted = "Misspelt.Devide: the tables have no constructor Devide; did you mean Divide?"
        self.assertEqual(self.refused(Misspelt), wanted)
        self.assertEqual(self.refused(Unknown), "Unknown.number: the tables have no constructor NUMBER")
        self.assertEqual(self.refused(Nameless), "Nameless.nothing_at_all: the tables have no constructor ")

    def test_two_for_a_constructor(self):
        class Twice(lytab.Transformer):
            def Add(self, node, left, right):
                return 1

            @lytab.constructs("Subtract", "Add")
            def other(self, node, left, right):
                return 2

        self.assertEqual(self.refused(Twice), "Twice.Add and Twice.other are both for the constructor Add")

    def test_the_nearest_class(self):
        class Reversed(Calculating):
            BASE = 1

            class Helper:
                pass

            def Add(self, node, left, right):
                return left - right + self._zero()

            def _zero(self):
                return 0

            Negate = None

            @staticmethod
            def Divide(node, left, right):
                return left // right

            @staticmethod
            @lytab.constructs("Power")
            def raised(node, left, right):
                return left

        value = Reversed(self.tables).transform
        self.assertEqual(value(self.tables.parse(b"5 + 2; 5 * 2; 9 / 2; 3 ^ 2;")), [3, 10, 4, 3])
        self.assertEqual(repr(value(self.tables.parse(b"-2;"))), "[Node('Negate', [1 children], 0, 2)]")

    def test_constructors_of_any_name(self):
        tables = lytab.Tables.build(b"%%\nx return 'x';\n", b"""%%
            token : 'x' { $$ = token($1); } | token 'x' { $$ = _y($1,$2); } ;""")

        class Named(lytab.Transformer):
            def token(self, token):
                return 1

            @lytab.constructs("token")
            def _first(self, node, value):
                return value + 100

            @lytab.constructs("_y")
            def _second(self, node, left, right):
                return left + right

        self.assertEqual(Named(tables).transform(tables.parse(b"xxx")), 103)


class DeepTrees(unittest.TestCase):
    """Trees of 100,000 levels, which no recursion of Python's reaches: one as deep as its text, and one of a list."""

    DEPTH = 100_000

    @classmethod
    def setUpClass(cls):
        cls.tables = tables_of("calc")
        cls.texts = {"Negate": b"-" * cls.DEPTH + b"1;", "Sheet": b"1;" * cls.DEPTH}
        cls.trees = {name: cls.tables.parse(text) for name, text in cls.texts.items()}

    def test_equality(self):
        for name, text in self.texts.items():
            self.assertTrue(self.trees[name] == self.tables.parse(text))
            other = text[:-2] + b"2;" if name == "Negate" else b"2" + text[1:]
            self.assertFalse(self.trees[name] == self.tables.parse(other))

    def test_walks(self):
        for name, tree in self.trees.items():
            before, after = ([it for it in tree.walk(order) if isinstance(it, lytab.Node)] for order in ("pre", "post"))
            self.assertEqual(sum(it.name == name for it in before), self.DEPTH)
            self.assertEqual([id(it) for it in before], [id(it) for it in reversed(after)])

    def test_pretty(self):
        lines = self.trees["Negate"].pretty().splitlines()
        self.assertEqual(lines[:4], ["Sheet", "  ()", "  Negate", "    Negate"])
        wanted = [" " * 78 + "Negate", " " * 80 + "Negate", " " * 80 + "41: Negate", " " * 80 + "42: Negate"]
        self.assertEqual(lines[40:44], wanted)
        self.assertEqual(lines[-1], " " * 80 + '100001: NUMBER"1"')
        self.assertEqual(len(lines), self.DEPTH + 3)

    def test_a_byte(self):
        self.assertEqual(repr(self.trees["Sheet"].at(0)), "Token('NUMBER', b'1', 0, 1)")
        self.assertEqual(repr(self.trees["Negate"].at(self.DEPTH)), "Token('NUMBER', b'1', 100000, 100001)")

    def test_a_list(self):
        items = self.trees["Sheet"].flat("Sheet")
        self.assertEqual([it.start for it in items], list(range(0, 2 * self.DEPTH, 2)))
        self.assertEqual(len(self.trees["Negate"].children[1].flat("Negate")), 1)

    def test_transformers(self):
        class Summing(Calculating):
            def Sheet(self, node, values, value):
                return (values or 0) + value

        value = Summing(self.tables).transform
        self.assertEqual((value(self.trees["Sheet"]), value(self.trees["Negate"])), (self.DEPTH, 1))
        self.assertEqual(lytab.Transformer(self.tables).transform(self.trees["Sheet"]), self.trees["Sheet"])

    def test_copies(self):
        for tree in self.trees.values():
            wanted = spelled(tree)
            for made in (copy.copy(tree), copy.deepcopy(tree)):
                self.assertEqual(spelled(made), wanted)
            for protocol in (0, 2, pickle.HIGHEST_PROTOCOL):
                self.assertEqual(spelled(pickle.loads(pickle.dumps(tree, protocol))), wanted)


class Shown(unittest.TestCase):
    """`SyntaxFault.show`, by hand and beside what the program of the same installation prints with `--where`."""

    PROGRAM = pathlib.Path(os.environ.get("LYTAB_LIBRARY") or lytab.__file__).resolve().parent.parent / "bin/lytab"
    TEXTS = [b"8 -\t\t* 3", b"1\n8 - \xff\xc3\xa9 * 3", b"\xe2\x82\xac", b"8 -\n", b"8 - ", b"", b"1 2\r\n", b"1\r",
             b"\r\n*", b"1 +\x01+ 2", b"1 \x7f2", b"1+" * 200 + b"*" + b"+1" * 200, b"*" + b"+1" * 200,
             b"1+" * 200 + b"*", b"1+" * 79 + b"**", b"1+" * 79 + b"*1", b"1 " + b"7" * 80, b"1 " + b"7" * 60, b"'",
             b"1 -\n\n * 3\n2", b"1 2" * 60]

    def fault(self, tables, text):
        with self.assertRaises(lytab.SyntaxFault) as raised:
            tables.parse(text)
        return raised.exception

    def test_by_hand(self):
        tables = tables_of("sums")
        fault = self.fault(tables, b"8 - * 3\n")
        wanted = "sums.txt:1:5: error: unexpected '*'\n    8 - * 3\n        ^\nexpected: NUMBER\n"
        self.assertEqual(fault.show("sums.txt"), wanted)
        self.assertEqual(fault.show(), wanted.replace("sums.txt", "-"))
        self.assertEqual(fault.excerpt, "    8 - * 3\n        ^\n")
        again = pickle.loads(pickle.dumps(fault))
        self.assertEqual((again.show(), str(again)), (fault.show(), str(fault)))
        fault = self.fault(tables, b"1\n1 +\n")
        self.assertEqual(fault.show("f"), "f:2:1: error: unexpected '1'\n    1 +\n    ^\nexpected: $end '+' '-' '*'\n")
        fault = self.fault(tables, b"1 +\n")
        self.assertEqual(fault.show("f"), "f:2:1: error: unexpected end of the text\nexpected: NUMBER\n")
        fault = self.fault(tables, b"1 + \xc3\xa9 @")
        self.assertEqual(fault.show("f"), "f:1:5: error: no rule matches '\\xc3'\n    1 + \xe9 @\n        ^\n")
        both = tables.parse_all([b"1 +", b"1 1"])
        self.assertEqual([it.excerpt for it in both], ["    1 +\n       ^\n", "    1 1\n      ^\n"])
        fault = lytab.SyntaxFault(1, 0, 1, 1, "A", b"'", ())
        self.assertEqual(fault.show(), "-:1:1: error: unexpected '\\''\nexpected:\n")

    @unittest.skipUnless(PROGRAM.is_file(), "there is no bin/lytab beside the library")
    def test_beside_the_program(self):
        tables = tables_of("sums")
        with tempfile.TemporaryDirectory() as room:
            (pathlib.Path(room) / "tables").write_bytes(tables.bytes)
            for text in self.TEXTS:
                words = [self.PROGRAM, "run", "--where", "tables"]
                ran = subprocess.run(words, cwd=room, input=text, capture_output=True)
                _, *expected = ran.stdout.splitlines(True)
                wanted = (ran.stderr + b"".join(expected)).decode(errors="replace")
                self.assertEqual((ran.returncode, self.fault(tables, text).show()), (1, wanted), text)


class WrongTypes(unittest.TestCase):
    """Arguments that are no bytes, and tokens that are none."""

    @classmethod
    def setUpClass(cls):
        cls.tables = tables_of("calc")

    def raised(self, call, *arguments):
        with self.assertRaises(TypeError) as raised:
            call(*arguments)
        return str(raised.exception)

    def test_texts(self):
        for call in (self.tables.parse, self.tables.answer, self.tables.json, lambda it: lytab.locate(it, 0),
                     lambda it: self.tables.parse_tokens(it, [])):
            self.assertEqual(self.raised(call, "1;"), "the text must be bytes, not str; encode it first")
            for value in (3, None, 1.5, [49], pathlib.Path("1"), self.tables):
                self.assertEqual(self.raised(call, value), f"the text must be bytes, not {type(value).__name__}")

    def test_many_texts(self):
        call = self.tables.parse_all
        self.assertEqual(self.raised(call, [b"1;", "1;"]), "text 2 must be bytes, not str; encode it first")
        self.assertEqual(self.raised(call, b"1;"), "text 1 must be bytes, not int")
        self.assertEqual(self.raised(call, "1;"), "text 1 must be bytes, not str; encode it first")
        self.raised(call, 3)

    def test_files(self):
        self.assertEqual(self.raised(lytab.Tables, 3), "the tables must be bytes, not int")
        self.assertEqual(self.raised(lytab.Tables, "x"), "the tables must be bytes, not str; encode it first")
        build = lytab.Tables.build
        self.assertEqual(self.raised(build, "", b""), "the lex file must be bytes, not str; encode it first")
        self.assertEqual(self.raised(build, b"", None), "the yacc file must be bytes, not NoneType")

    def test_tokens(self):
        for token in (3, None, (), ("NUMBER", 0), ("NUMBER", 0, 1, 2), ("NUMBER", "0", 1), ("NUMBER", 0, 1.0),
                      (2.0, 0, 1), (None, 0, 1), ("NUMBER", None, 1)):
            said = self.raised(self.tables.parse_tokens, b"1", [("NUMBER", 0, 1), token])
            self.assertEqual(said, f"token 2 must be a terminal, a start and an end, not {token!r}")

    def test_offsets(self):
        self.raised(lytab.locate, b"", "0")
        with self.assertRaises(ValueError) as raised:
            lytab.locate(b"abc", -1)
        self.assertEqual(str(raised.exception), "the offset -1 is negative")

    def test_other_buffers(self):
        self.assertEqual(self.tables.parse(memoryview(b"x1x;x")[1::2]).text, b"1;")


class TableFiles(unittest.TestCase):
    """`Tables.open`."""

    def test_paths(self):
        made = tables_of("calc")
        with tempfile.TemporaryDirectory() as room:
            path = pathlib.Path(room) / "calc.tables"
            path.write_bytes(made.bytes)
            for it in (path, str(path)):
                tables = lytab.Tables.open(it)
                self.assertEqual((tables.bytes, tables.rules, tables.conflicts), (made.bytes, made.rules, None))
            with self.assertRaises(FileNotFoundError):
                lytab.Tables.open(path.with_name("other"))
            path.write_bytes(b"LYTA")
            with self.assertRaises(lytab.TableFault) as raised:
                lytab.Tables.open(path)
            self.assertEqual(raised.exception.number, 80)

    def test_pickles(self):
        tables = tables_of("calc")
        again = pickle.loads(pickle.dumps(tables))
        self.assertEqual((again.bytes, again.conflicts), (tables.bytes, (0, 0)))
        self.assertEqual(again.answer(b"1;"), tables.answer(b"1;"))


class Collector(unittest.TestCase):
    """The garbage collector: off while a tree is made, and afterwards as it was."""

    @classmethod
    def setUpClass(cls):
        cls.tables = tables_of("calc")

    def tearDown(self):
        gc.enable()

    def seen(self, call):
        """Whether the collector was on when nodes were made in a call."""
        seen, made = set(), lytab.Node.__init__

        def noticing(node, *arguments):
            seen.add(gc.isenabled())
            made(node, *arguments)

        with mock.patch.object(lytab.Node, "__init__", noticing):
            call()
        return seen

    def test_off_meanwhile(self):
        tree = self.tables.parse(b"1;")
        for call in (lambda: self.tables.parse(b"1;"), lambda: self.tables.parse_all([b"1;", b"1 + 2;"]),
                     lambda: self.tables.parse_tokens(b"1;", [("NUMBER", 0, 1), ("';'", 1, 2)]),
                     lambda: pickle.loads(pickle.dumps(tree)), lambda: copy.deepcopy(tree)):
            for is_on in (True, False):
                (gc.enable if is_on else gc.disable)()
                self.assertEqual((self.seen(call), gc.isenabled()), ({False}, is_on))

    def test_after_an_exception(self):
        for is_on in (True, False):
            (gc.enable if is_on else gc.disable)()
            for error in (MemoryError, KeyboardInterrupt):
                with mock.patch.object(lytab, "Token", side_effect=error):
                    with self.assertRaises(error):
                        self.tables.parse(b"1;")
                self.assertEqual(gc.isenabled(), is_on)
            with self.assertRaises(lytab.SyntaxFault):
                self.tables.parse(b"1")
            self.assertEqual(gc.isenabled(), is_on)

    def test_several_inside(self):
        for is_on in (True, False):
            (gc.enable if is_on else gc.disable)()
            collector = lytab._Collector()
            for leave in itertools.product((True, False), repeat=6):
                inside = 0
                for is_leaving in leave:
                    if is_leaving and inside:
                        collector.__exit__(None, None, None)
                        inside -= 1
                    elif not is_leaving:
                        collector.__enter__()
                        inside += 1
                    self.assertEqual(gc.isenabled(), is_on and not inside)
                for _ in range(inside):
                    collector.__exit__(None, None, None)
                self.assertEqual(gc.isenabled(), is_on)

    def test_threads(self):
        text, raised = b"1 + 2;" * 2_000, []

        def parse():
            try:
                for _ in range(5):
                    self.tables.parse(text)
            except BaseException as error:
                raised.append(error)

        for is_on in (True, False):
            (gc.enable if is_on else gc.disable)()
            threads = [threading.Thread(target=parse) for _ in range(6)]
            for thread in threads:
                thread.start()
            for thread in threads:
                thread.join()
            self.assertEqual((raised, gc.isenabled(), lytab._collector._inside), ([], is_on, 0))

    @unittest.skipUnless(hasattr(os, "fork"), "there is no fork")
    def test_a_fork(self):
        with lytab._collector:
            child = os.fork()
            if child == 0:
                # the child has no other thread, in which the tree could still be made
                os._exit(0 if gc.isenabled() and not lytab._collector._inside else 1)
        self.assertEqual((os.waitpid(child, 0)[1], gc.isenabled()), (0, True))


class Memory(unittest.TestCase):
    """How much memory a tree takes."""

    PROGRAM = """
        import lytab, resource
        peak = lambda: 1024 * resource.getrusage(resource.RUSAGE_SELF).ru_maxrss
        tables = lytab.Tables.build(open("json.l", "rb").read(), open("json.y", "rb").read())
        text = b"[" + b", ".join(b'{"id": %d, "name": "number %d", "of": [1, 2, null]}' % (n, n) for n in range(40_000))
        text, before = text + b"]", peak()
        tree = tables.parse(text)
        print(sum(1 for _ in tree.walk()), peak() - before)
    """

    @unittest.skipUnless(sys.platform == "linux", "the peak is in KiB on Linux")
    def test_a_large_text(self):
        environment = {**os.environ, "PYTHONPATH": str(TOP / "python"), "LYTAB_LIBRARY": lytab._library()._name}
        # (a program has at least the peak of the process that it replaces, so it is a child of a small one)
        words = ["sh", "-c", '"$@"; exit $?', "sh", sys.executable, "-B", "-c", textwrap.dedent(self.PROGRAM)]
        ran = subprocess.run(words, cwd=TOP / "examples", env=environment, stdout=subprocess.PIPE, check=True)
        count, peak = map(int, ran.stdout.split())
        # an object has 17 parts; and there are 39,999 nodes of the list, and the array
        self.assertEqual(count, 40_000 * 17 + 39_999 + 1)
        # Each part took 196 to 200 bytes by Python's version, and 209 to 212 if equal numbers of neighbours were two
        # objects.
        self.assertLess(peak / count, 204, (count, peak))


@unittest.skipUnless(importlib.util.find_spec("mypy"), "there is no mypy for this Python")
class Types(unittest.TestCase):
    """The type hints, where Python has mypy."""

    USER = """
        from typing import List
        import lytab

        tables: lytab.Tables = lytab.Tables.open("calc.tables")
        tree: lytab.Part = tables.parse(b"1;")
        names: List[str] = [part.name for part in lytab.walk(tree, "post") if part is not None]
        if isinstance(tree, lytab.Node):
            found = tree.at(0)
            said: bytes = tree.text + (found.text if found else b"")

        class Values(lytab.Transformer):
            def Add(self, node: lytab.Node, left: int, right: int) -> int:
                return left + right
    """

    def said(self, *words):
        with tempfile.TemporaryDirectory() as kept:
            command = [sys.executable, "-m", "mypy", "--strict", "--cache-dir", kept, *words]
            ran = subprocess.run(command, cwd=TOP / "python", capture_output=True, text=True)
        return ran.returncode, ran.stdout

    def test_the_module(self):
        self.assertEqual(self.said("lytab.py")[0], 0, self.said("lytab.py"))

    def test_a_user(self):
        self.assertEqual(self.said("-c", textwrap.dedent(self.USER))[0], 0, self.said("-c", textwrap.dedent(self.USER)))
        for wrong in ('tables.parse("1;")', "lytab.Tables.open(3)", 'tables.parse(b"1;").name', "lytab.walk(3)",
                      "lytab.Transformer()", "lytab.Token('A', 'a', 0, 1)"):
            status, said = self.said("-c", textwrap.dedent(self.USER) + wrong + "\n")
            self.assertEqual((status, said.count(": error:")), (1, 1), (wrong, said))


class Faults(unittest.TestCase):
    """Files that are refused, with faults of the documents."""

    def test_a_yacc_file(self):
        with self.assertRaises(lytab.BuildFault) as raised:
            lytab.Tables.build(b"%%\nx return A;\n", b"%token A\n\n%%\ns : A { $$ = N($2); } ;\n")
        fault = raised.exception
        self.assertEqual((fault.number, fault.file, fault.line, fault.column), (35, "yacc", 4, 17))

    def test_a_lex_file(self):
        with self.assertRaises(lytab.BuildFault) as raised:
            lytab.Tables.build(b"%%\nx return A;\nyy return;\n", b"%token A\n%%\ns : A ;\n")
        fault = raised.exception
        self.assertEqual((fault.number, fault.file, fault.line, fault.column), (24, "lex", 3, 10))

    def test_both_files(self):
        with self.assertRaises(lytab.BuildFault) as raised:
            lytab.Tables.build(b"%%\nx return A;\n", b"%token A\n%%\ns : q ;\n")
        fault = raised.exception
        self.assertEqual((fault.number, fault.file, fault.line, fault.column), (40, None, 0, 0))

    def refused(self, tables):
        with self.assertRaises(lytab.TableFault) as raised:
            lytab.Tables(tables)
        return raised.exception.number, raised.exception.section

    def test_a_table_file(self):
        tables = tables_of("calc").bytes
        found = [self.refused(it) for it in (b"", b"x", b"LYTB\0\3", tables[:-1], tables + b"x")]
        self.assertEqual(found, [(82, 0), (80, 0), (81, 0), (82, 0), (83, 0)])

    def test_a_number_out_of_range(self):
        tables = bytearray(lytab.Tables.build(b"%%\nx return 'x';\n", b"%%\ns : 'x' ;\n").bytes)
        tables[33] = 1  # the first literal, which stands there by docs/table-file.md
        self.assertEqual(self.refused(tables), (84, 3))


class Places:
    """Writes a tree as `lytab run --places` does, from docs/trees.md alone."""

    def __init__(self, text):
        self.text = text
        self.lines = [0] + [at + 1 for at, byte in enumerate(text) if byte == 10]

    def place(self, byte):
        line = bisect_right(self.lines, byte)
        return [byte, line, byte - self.lines[line - 1] + 1]

    def content(self, bytes_):
        try:
            return {"text": bytes_.decode()}
        except UnicodeDecodeError:
            return {"bytes": list(bytes_)}

    def head(self, kind, part):
        return {kind: part.name, "start": self.place(part.start), "end": self.place(part.end)}

    def tree(self, tree):
        """The line of a tree, without recursion."""
        written, waiting = [], [tree]
        while waiting:
            part = waiting.pop()
            if part is None:
                written.append("null")
            elif isinstance(part, str):
                written.append(part)
            elif isinstance(part, lytab.Token):
                written.append(compact({**self.head("token", part), **self.content(part.text)}))
            else:
                written.append(compact({**self.head("node", part), "children": []})[:-2])
                waiting.append("]}")
                between = [it for child in part.children for it in (",", child)][1:]
                waiting.extend(reversed(between))
        return "".join(written)

    def fault(self, fault):
        """The line of a text that is refused."""
        place = self.place(fault.offset)
        if fault.name is None:
            return compact({"error": "unmatched", "byte": fault.offset, "start": place, "end": place})
        said = {"error": "refused", "number": fault.number, "byte": fault.offset, "start": place}
        said.update({"end": self.place(fault.offset + len(fault.text)), "token": fault.name})
        said.update(self.content(fault.text) if fault.text else {})
        return compact({**said, "expected": list(fault.expected)})


def compact(value):
    return json.dumps(value, ensure_ascii=False, separators=(",", ":"))


class Apart(unittest.TestCase):
    """Answers beside those of a driver that was written apart."""

    def compare(self, tables, driver, text):
        self.assertEqual(tables.answer(text), lydrive.answer(driver, text)[0], text)
        self.assertEqual(tables.json(text), lydrive.answer(driver, text, is_json=True)[0], text)
        try:
            said = Places(text).tree(tables.parse(text))
        except lytab.SyntaxFault as fault:
            said = Places(text).fault(fault)
        self.assertEqual(said.encode() + b"\n", lydrive.answer(driver, text, has_places=True)[0], text)

    def damaged(self, text, draws):
        """A piece of a text in which some bytes are others, or left out, or stand twice."""
        start = draws.randrange(len(text))
        piece = bytearray(text[start : start + draws.randrange(1, 200)])
        for _ in range(draws.randrange(4)):
            at = draws.randrange(len(piece) + 1)
            piece[at : at + draws.randrange(3)] = draws.choice([b"", b";", b"(", b"\n", b"\xff", piece[:at][-3:]])
        return bytes(piece)

    def over(self, name, text, count):
        tables, draws = tables_of(name), random.Random(65)
        driver = lydrive.Tables(tables.bytes)
        for it in [b"", text, *(self.damaged(text, draws) for _ in range(count))]:
            self.compare(tables, driver, it)

    def test_calculator(self):
        self.over("calc", example("calc.txt"), 300)

    def test_json(self):
        self.over("json", example("json.txt"), 300)

    def test_c(self):
        self.over("c", example("c-program.txt"), 60)

    def test_depth(self):
        # (lydrive.py once copied the stack for each token, which took 150 seconds here)
        tables, start = tables_of("json"), time.process_time()
        driver = lydrive.Tables(tables.bytes)
        for end in (b"]" * 200_000, b"]" * 199_999 + b"}", b""):
            text = b"[" * 200_000 + end
            self.assertEqual(tables.answer(text), lydrive.answer(driver, text)[0])
        self.assertLess(time.process_time() - start, 60)


@unittest.skipUnless(shutil.which("cc"), "there is no cc, so examples/drivers/lydrive.c isn't compiled")
class ApartInC(unittest.TestCase):
    """Answers and faults beside examples/drivers/lydrive.c, a driver in C that was written apart from lytab too. It
    looks for all faults of a table file, so damaged files are told by it as well."""

    FAULT = re.compile(rb"lytab: tables: fault ([0-9]+) [A-Za-z]+(?: section ([0-9]+))?\n")

    @classmethod
    def setUpClass(cls):
        cls.room = tempfile.TemporaryDirectory()
        cls.folder = pathlib.Path(cls.room.name)
        words = ["cc", "-std=c99", "-O2", "-Wall", "-Wextra", "-Werror", TOP / "examples/drivers/lydrive.c"]
        subprocess.run([*words, "-o", cls.folder / "lydrive"], check=True)

    @classmethod
    def tearDownClass(cls):
        cls.room.cleanup()

    def wanted(self, file, text):
        """What the driver says: an answer, or the number and the section of a fault."""
        (self.folder / "tables").write_bytes(file)
        words = [self.folder / "lydrive", self.folder / "tables"]
        ran = subprocess.run(words, input=text, capture_output=True, timeout=300)
        found = self.FAULT.fullmatch(ran.stderr)
        self.assertEqual(ran.returncode == 2, found is not None, ran.stderr)
        return (int(found[1]), int(found[2] or 0)) if found else ran.stdout

    def said(self, file, text):
        try:
            return lytab.Tables(file).answer(text)
        except lytab.TableFault as fault:
            return fault.number, fault.section

    def beside(self, name, text_name, times, has_damaged_tables):
        chance, tables, text = random.Random(name), tables_of(name).bytes, example(text_name)
        for _ in range(times):
            file, changed = bytearray(tables), bytearray(text)
            for _ in range(chance.randrange(3)):
                changed[chance.randrange(len(changed))] = chance.choice(b"()[]{}+*;:,1a \n\"")
            for _ in range(chance.randrange(1, 3) if has_damaged_tables else 0):
                file[chance.randrange(len(file))] = chance.choice([0, 1, 2, 255, chance.randrange(256)])
            if has_damaged_tables and chance.randrange(8) == 0:
                del file[chance.randrange(len(file)) :]
            file, changed = bytes(file), bytes(changed)
            self.assertEqual(self.said(file, changed), self.wanted(file, changed), (name, file, changed))

    def test_texts(self):
        for name, text in (("calc", "calc.txt"), ("json", "json.txt"), ("c", "c-program.txt")):
            self.beside(name, text, 60, False)

    def test_tables(self):
        for name, text in (("calc", "calc.txt"), ("json", "json.txt"), ("c", "c-program.txt")):
            self.beside(name, text, 60, True)


@unittest.skipUnless(shutil.which("node"), "there is no node, so examples/drivers/lydrive.js doesn't run")
class ApartInJavaScript(unittest.TestCase):
    """Answers and faults beside examples/drivers/lydrive.js, a driver in JavaScript that was written apart from lytab
    too. Like that in C it looks for all faults of a table file."""

    DRIVER = TOP / "examples/drivers/lydrive.js"
    # Answers each line of standard input, a table file and a text, by a line of JSON.
    PROGRAM = """
        const lydrive = require(process.argv[1]);
        const bytes = (value) => Uint8Array.from(Buffer.from(value, "base64"));
        const forms = [{}, { json: true }, { places: true }];
        for (const line of require("fs").readFileSync(0, "utf8").split("\\n").filter(Boolean)) {
          const [file, text] = line.split(" ").map(bytes);
          let said;
          try {
            const tables = new lydrive.Tables(file);
            said = forms.map((form) => Buffer.from(lydrive.answer(tables, text, form).output).toString("base64"));
          } catch (fault) {
            if (!(fault instanceof lydrive.TableFault)) throw fault;
            said = [fault.number, fault.section];
          }
          process.stdout.write(JSON.stringify(said) + "\\n");
        }
    """

    def wanted(self, pairs):
        """What the driver says of pairs of a table file and a text: three answers, or the number and section of a
        fault."""
        lines = "".join(" ".join(base64.b64encode(it).decode() for it in pair) + "\n" for pair in pairs)
        words = ["node", "-e", self.PROGRAM, self.DRIVER]
        ran = subprocess.run(words, input=lines, stdout=subprocess.PIPE, text=True, check=True, timeout=300)
        said = [json.loads(line) for line in ran.stdout.splitlines()]
        self.assertEqual(len(said), len(pairs))
        return [tuple(base64.b64decode(it) if isinstance(it, str) else it for it in one) for one in said]

    def said(self, file, text):
        try:
            tables = lytab.Tables(file)
            answers = tables.answer(text), tables.json(text)
        except lytab.TableFault as fault:
            return fault.number, fault.section
        try:
            placed = Places(text).tree(tables.parse(text))
        except lytab.SyntaxFault as fault:
            placed = Places(text).fault(fault)
        return (*answers, placed.encode() + b"\n")

    def beside(self, pairs):
        for (file, text), wanted in zip(pairs, self.wanted(pairs)):
            self.assertEqual(self.said(file, text), wanted, (file, text))

    def changed(self, bytes_, count, choices, chance):
        made = bytearray(bytes_)
        for _ in range(count):
            made[chance.randrange(len(made))] = chance.choice(choices)
        return bytes(made)

    def test_texts(self):
        for name, text in (("calc", "calc.txt"), ("json", "json.txt"), ("c", "c-program.txt"), ("sums", "sums.txt")):
            chance, file, text = random.Random(name), tables_of(name).bytes, example(text)
            signs = b"()[]{}+*;:,1a \n\"\t\\'\x00\xff\xc3\xa9"
            texts = [self.changed(text, chance.randrange(3), signs, chance) for _ in range(150)]
            self.beside([(file, it) for it in [b"", text, text[:-2], *texts]])

    def test_parts_without_tokens(self):
        file = lytab.Tables.build(b"%%\n[a-c] return yytext[0];\n[ \\n] ;\n", b"""%%
            s : e 'a' p e 'b' e { $$ = S($6,$3,$1,$4); } | s 'c' n e { $$ = T($4,$3,$1); } ;
            p : e { $$ = $1; } ;
            n : ;
            e : { $$ = E(); } | 'c' { $$ = C(); } ;""").bytes
        self.beside([(file, it) for it in (b" a b", b"a\n b", b" c a c b c c", b"\n a b c c  c ", b"a", b"a b c")])

    def test_bytes(self):
        file = lytab.Tables.build(Bytes.LEX, Bytes.YACC).bytes
        file, marked = file.replace(b"Both", b"B\xff\x80\""), b"\xef\xbb\xbf"
        texts = b"\0", marked + b"\0", marked + b"x\xff\0", b"\xed\xa0\x80\x1f", b"\xc0\x80\1", b"\xff", b"\0\xc3\xa9"
        self.beside([(file, it) for it in texts])

    def test_depth(self):
        file = tables_of("json").bytes
        self.beside([(file, b"[" * 100_000 + end) for end in (b"]" * 100_000, b"]" * 99_999 + b"}", b"")])

    def test_damaged_tables(self):
        found = set()
        for name, text in (("calc", b"(1 + 2) * 3; -4 ^ 5;"), ("json", example("json.txt")), ("sums", b"1 - 2 * 3")):
            chance, file = random.Random(name), tables_of(name).bytes
            others = [0, 1, 2, 255, *file[-4000:]]
            files = [self.changed(file, chance.randrange(1, 4), others, chance) for _ in range(700)]
            files += [file[: chance.randrange(len(file))] for _ in range(40)] + [file + b"\0"]
            self.beside([(it, text) for it in files])
            found.update(self.said(it, text)[0] for it in files)
        self.assertLessEqual({80, 81, 82, 83, 84, 90}, found)

    def test_tables_by_hand(self):
        # the runs of cases/tables: each fault, in both versions of the table file
        with tempfile.TemporaryDirectory() as room:
            shutil.copytree(TOP / "cases/tables", room, dirs_exist_ok=True)
            subprocess.run(["sh", "./make"], cwd=room, check=True)
            runs, faults = [], set()
            for row in (TOP / "cases/tables/rows").read_text().split("\n\n"):
                values = dict(line.split(" ", 1) for line in row.splitlines() if " " in line)
                file = re.fullmatch(r"run ([\w-]+)", values.get("args", ""))
                fault = re.search(r"tables: fault (\d+) \w+(?: section (\d+))?", values.get("stderr", ""))
                if file and "\\" not in values.get("text", "") and (fault or values.get("stdout")):
                    wanted = (int(fault[1]), int(fault[2] or 0)) if fault else None
                    runs.append(((pathlib.Path(room) / file[1]).read_bytes(), values.get("text", "").encode(), wanted))
            for (file, text, wanted), said in zip(runs, self.wanted([run[:2] for run in runs])):
                faults.add(said[0] if wanted else 0)
                self.assertEqual(said, wanted or self.said(file, text), (file, text))
        self.assertEqual(faults, {0, 80, 81, 82, 83, 84, 85, 90})

    def test_the_program(self):
        with tempfile.TemporaryDirectory() as name:
            room = pathlib.Path(name)
            tables = tables_of("sums")
            (room / "tables").write_bytes(tables.bytes)
            (room / "text").write_bytes(b"8 - 2\n")
            for words, text, wanted in (
                (["tables"], b"8 - 2", (0, tables.answer(b"8 - 2"), b"")),
                (["tables", "text", "--json"], b"", (0, tables.json(b"8 - 2"), b"")),
                (["tables"], b"8 -", (1, tables.answer(b"8 -"), b"")),
                (["text"], b"8", (2, b"", b"lydrive: tables: fault 80\n")),
            ):
                ran = subprocess.run(["node", self.DRIVER, *words], cwd=room, input=text, capture_output=True)
                self.assertEqual((ran.returncode, ran.stdout, ran.stderr), wanted)
            for words, status in ((["other"], 3), ([], 4), (["tables", "text", "text"], 4)):
                ran = subprocess.run(["node", self.DRIVER, *words], cwd=room, input=b"", capture_output=True)
                self.assertEqual((ran.returncode, ran.stdout, ran.stderr.count(b"\n")), (status, b"", 1))


BROWSER = next(filter(None, map(shutil.which, ("chromium", "chromium-browser", "google-chrome"))), None)


class Playground(unittest.TestCase):
    """examples/playground/index.html: in a browser where there is one, and otherwise by node over the same code."""

    PAGE = TOP / "examples/playground/index.html"
    # Runs the scripts of the page over a document of its own, chooses files and types a text, and prints what the page
    # then shows.
    PROGRAM = """
        const fs = require("fs"), path = require("path"), vm = require("vm");
        const [page, hash, given] = process.argv.slice(1);
        const made = () => ({ textContent: "", value: "", children: [], heard: {}, focus() {},
          addEventListener(name, call) { this.heard[name] = call; }, replaceChildren(...them) { this.children = them; },
          setSelectionRange(...span) { this.span = span; } });
        const elements = {};
        const document = { getElementById: (id) => (elements[id] = elements[id] || made()), createElement: made };
        const context = vm.createContext({ document, location: { hash }, atob, TextEncoder, TextDecoder, Uint8Array });
        const scripts = fs.readFileSync(page, "utf8").matchAll(/<script(?: src="(.*)")?>([^]*?)<.script>/g);
        for (const [, source, code] of scripts) {
          vm.runInContext(source ? fs.readFileSync(path.join(path.dirname(page), source), "utf8") : code, context);
        }
        const chosen = (value) => [{ arrayBuffer: async () => Uint8Array.from(Buffer.from(value, "base64")).buffer }];
        const shown = () => {
          const spans = elements.tree.children.map((line) => {
            elements.text.span = null;
            if (line.heard.click) line.heard.click();
            return elements.text.span;
          });
          const tree = elements.tree.children.map((line) => line.textContent);
          return { fault: elements.fault.textContent, about: elements.about.textContent, tree, spans };
        };
        (async () => {
          for (const [id, value] of JSON.parse(given)) {
            const { input, change } = elements[id].heard;
            await (input ? input({ target: { value } }) : change({ target: { files: chosen(value) } }));
          }
          process.stdout.write(JSON.stringify(shown()));
        })();
    """

    def address(self, tables, text):
        tables, text = (urllib.parse.quote(it, safe="") for it in (base64.b64encode(tables), text))
        return f"#text={text}&tables={tables}"

    def in_node(self, tables, text, given=()):
        words = ["node", "-e", self.PROGRAM, self.PAGE, self.address(tables, text) if tables else "", json.dumps(given)]
        ran = subprocess.run(words, stdout=subprocess.PIPE, check=True)
        return json.loads(ran.stdout)

    def in_browser(self, tables, text):
        words = [BROWSER, "--headless", "--no-sandbox", "--disable-gpu", "--dump-dom"]
        with tempfile.TemporaryDirectory() as profile:
            words += [f"--user-data-dir={profile}", self.PAGE.as_uri() + self.address(tables, text)]
            ran = subprocess.run(words, stdout=subprocess.PIPE, stderr=subprocess.DEVNULL, check=True, timeout=120)
        page = ran.stdout.decode()
        shown = {name: html.unescape(re.search(rf'id="{name}"[^>]*>([^<]*)<', page)[1]) for name in ("fault", "about")}
        tree = re.search(r'<pre id="tree">(.*?)</pre>', page, re.S)[1]
        return {**shown, "tree": [html.unescape(it) for it in re.findall(r"<div>(.*?)</div>", tree, re.S)]}

    def test_pages(self):
        if not BROWSER and not shutil.which("node"):
            raise unittest.SkipTest("there is no browser and no node, so the page isn't opened")
        shown = self.in_browser if BROWSER else self.in_node
        tables = tables_of("sums")
        for text in (b"8 - 2 * 3", b"8 - * 3\n", b"8 -\n\xc3\xa9", b"1 +\n", b"1 \t2" + b" + 3" * 60):
            said = shown(tables.bytes, text)
            self.assertEqual(said["about"], "6 terminals, 4 rules")
            try:
                tree = tables.parse(text)
                self.assertEqual((said["tree"], said["fault"]), (tree.pretty().splitlines(), ""))
            except lytab.SyntaxFault as fault:
                self.assertEqual((said["tree"], said["fault"]), ([], fault.show()[len("-:") :]))
        self.assertEqual(shown(tables.bytes[:-1], b"1")["fault"], "tables: fault 82")

    @unittest.skipUnless(shutil.which("node"), "there is no node")
    def test_clicks(self):
        tables = lytab.Tables.build(b"%%\n[a-z\\x80-\\xff]+ return WORD;\n\\n ;\n", b"""%token WORD
            %%
            s : { $$ = S(); } | s WORD { $$ = S($1,$2); } ;""")
        said = self.in_node(tables.bytes, "ab\n\u20ac\U0001f600\nc".encode())
        lines = ["S", "  S", "    S", "      S", '      WORD"ab"', None, '  WORD"c"']
        self.assertEqual([line if "\\x" not in line else None for line in said["tree"]], lines)
        # (the text box counts UTF-16 units)
        self.assertEqual(said["spans"], [[0, 8], [0, 6], [0, 2], [0, 0], [0, 2], [3, 6], [7, 8]])

    @unittest.skipUnless(shutil.which("node"), "there is no node")
    def test_choices(self):
        tables, text = tables_of("sums"), b"8 -\r\n\xff"
        file, other = (base64.b64encode(it).decode() for it in (tables.bytes, tables.bytes[:-1]))
        said = self.in_node(None, b"", [["tables", file], ["file", base64.b64encode(text).decode()]])
        with self.assertRaises(lytab.SyntaxFault) as raised:
            tables.parse(text)
        self.assertEqual((said["tree"], said["fault"]), ([], raised.exception.show()[len("-:") :]))
        said = self.in_node(tables.bytes, b"8 -", [["text", "8 - 2"]])
        self.assertEqual((said["tree"], said["fault"]), (["Subtract", '  NUMBER"8"', '  NUMBER"2"'], ""))
        said = self.in_node(tables.bytes, b"8", [["tables", other]])
        self.assertEqual((said["tree"], said["about"], said["fault"]), ([], "", "tables: fault 82"))
        said = self.in_node(tables.bytes[:-1], b"8", [["tables", file]])
        self.assertEqual((said["tree"], said["fault"]), (['NUMBER"8"'], ""))

    @unittest.skipUnless(shutil.which("node"), "there is no node")
    def test_large_trees(self):
        said = self.in_node(tables_of("sums").bytes, b"1" + b"+1" * 1500)
        self.assertEqual((len(said["tree"]), said["tree"][-1]), (2001, ".. and 1001 more parts"))
        self.assertEqual(said["tree"][1000], " " * 80 + "1000: Add")


class WholeTables(unittest.TestCase):
    """Table files, byte for byte, beside those that are worked out from the definitions."""

    def test_pairs(self):
        with tempfile.TemporaryDirectory() as name:
            room = pathlib.Path(name)
            pairs = TOP / "cases/whole-tables/pairs"
            subprocess.run([sys.executable, "-B", TOP / "tools/expected_tables", pairs], cwd=room, check=True)
            runs = (room / "runs").read_text()
            built = re.findall(r"^build (lex\d+) (yacc\d+) (tables\d+\.2) --report (report\d+\.2)$", runs, re.M)
            self.assertGreater(len(built), 80)
            for names in built:
                self.compare(*(room / name for name in names))

    def compare(self, lex, yacc, tables, report):
        tables, report = (path.with_name(f"{path.name}.wanted") for path in (tables, report))
        if not tables.exists():
            with self.assertRaises(lytab.BuildFault) as raised:
                lytab.Tables.build(lex.read_bytes(), yacc.read_bytes())
            self.assertIn(raised.exception.number, (60, 70))
            return
        made = lytab.Tables.build(lex.read_bytes(), yacc.read_bytes())
        self.assertEqual(made.bytes, tables.read_bytes(), yacc.read_bytes())
        found = re.search(r"^conflicts: (\d+) shift/reduce, (\d+) reduce/reduce$", report.read_text(), re.M)
        self.assertEqual(made.conflicts, tuple(map(int, found.groups())))


class Hostile(unittest.TestCase):
    """Damaged table files, beside lydrive.py, and many threads."""

    TEXT = b"(1 + 2) * 3; -4 ^ 5;"

    def said(self, tables):
        """What the library says of the text: both answers, or the number of an error."""
        try:
            answer = tables.answer(self.TEXT)
        except lytab.TableFault as fault:
            self.assertEqual(fault.section, 0)
            with self.assertRaises(lytab.TableFault) as raised:
                tables.parse(self.TEXT)
            return fault.number, raised.exception.number
        try:
            said = Places(self.TEXT).tree(tables.parse(self.TEXT))
        except lytab.SyntaxFault as fault:
            said = Places(self.TEXT).fault(fault)
        # (the drivers write the names of table files as characters of one byte)
        return answer, said.encode() + b"\n"

    def wanted(self, file):
        driver = lydrive.Tables(file)
        try:
            return lydrive.answer(driver, self.TEXT)[0], lydrive.answer(driver, self.TEXT, has_places=True)[0]
        except lydrive.TableFault:
            return 90, 90

    def test_damaged_tables(self):
        tables, draws, counts = tables_of("calc").bytes, random.Random(66), {"accepted": 0, "faulty": 0}
        for _ in range(10_000):
            damaged = bytearray(tables)
            for _ in range(draws.choice([1, 1, 2, 3])):
                # (what stands elsewhere is in its range more often than any byte)
                damaged[draws.randrange(len(damaged))] = draws.choice([draws.randrange(256), draws.choice(tables)])
            try:
                read = lytab.Tables(damaged)
            except lytab.TableFault as fault:
                self.assertIn(fault.number, range(80, 86))
                self.assertIn(fault.section, range(2, 13) if fault.number == 84 else [0])
                counts[fault.number] = counts.get(fault.number, 0) + 1
                continue
            said = self.said(read)
            self.assertEqual(said, self.wanted(bytes(damaged)), bytes(damaged))
            counts["faulty" if said == (90, 90) else "accepted"] += 1
        # Most tries are refused. If hardly any is accepted, the test compares nothing.
        self.assertGreater(counts["accepted"], 500, counts)
        self.assertGreater(counts[84], 5000, counts)

    def test_threads(self):
        tables, said, raised = tables_of("calc"), [], []

        def ask():
            try:
                for _ in range(50):
                    said.append((repr(tables.parse(b"(1 + 2) * 3;")), tables.answer(b"")))
            except BaseException as error:
                raised.append(error)

        threads = [threading.Thread(target=ask) for _ in range(8)]
        for thread in threads:
            thread.start()
        for thread in threads:
            thread.join()
        self.assertEqual(raised, [])
        self.assertEqual(said, [("Node('Sheet', [2 children], 0, 12)", b"()\n")] * 400)


if __name__ == "__main__":
    unittest.main()
