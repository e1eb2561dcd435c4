"""Parses texts with lytab, over its C library.

    import lytab

    tables = lytab.Tables.build(open("sums.l", "rb").read(), open("sums.y", "rb").read())
    tree = tables.parse(b"8 - 2 * 3")
    print(tree.name, [child.text for child in tree.walk() if isinstance(child, lytab.Token)])

A tree has nodes, tokens, and None for an empty tree. `match` takes it apart, `walk` visits its parts, `at` finds the
part at a byte, `flat` reads a list, and a Transformer computes a value from it. All work on trees of any depth.

This file isn't proved, only tested. The library that it calls is proved, if liblytab.so was installed without
`--quick`: the statuses, the errors and the lists of parts.

The library is the file named by the environment variable LYTAB_LIBRARY, or that of the installation that contains this
file, or the one that the system's loader finds. Bytes count from 0; tokens, rules, lines and columns count from 1;
columns count bytes. Many threads may call at the same time.
"""
from __future__ import annotations

import copy
import ctypes
import difflib
import functools
import gc
import itertools
import operator
import os
import pathlib
import re
import struct
import threading
from typing import Any, Callable, Dict, Iterable, Iterator, List, Optional, Tuple, Type, TypeVar, Union

VERSION = 1
_DONE, _REFUSED, _FAULT, _MEMORY, _MISUSED, _SHORT = range(6)
_TOKEN, _NODE = 1, 2
_FILES = (None, "lex", "yacc")
_PART = struct.Struct("=IIQQQ")
_GIVEN = struct.Struct("=IIQQ")
# How many parts of a tree are unpacked at a time.
_AT_ONCE = 1 << 10
# How many bytes of an unexpected token, and of a source line, a message has at most.
_LONGEST, _WIDEST = 60, 160
# Characters that aren't shown as they are: controls, separators of lines, changes of direction, and invisible ones.
_UNSEEN = re.compile(
    "[\x80-\x9f\xad\u061c\u180e\u200b-\u200f\u2028-\u202e\u2060-\u206f\ufeff\ufff9-\ufffb\U000e0000-\U000e007f]"
)
# How many levels a line of `pretty` is indented at most.
_LEVELS = 40


class _Collector:
    """Keeps Python's garbage collector off while trees are made, which hold no garbage: it would look through all of a
    tree again and again. Any number of threads may be inside; the last one leaves the collector as the first found
    it."""

    def __init__(self) -> None:
        self._lock, self._inside, self._was_on = threading.RLock(), 0, False

    def after_fork(self) -> None:
        """Starts anew in the child of a fork, which has none of the other threads."""
        if self._inside and self._was_on:
            gc.enable()
        self._lock, self._inside = threading.RLock(), 0

    def __enter__(self) -> None:
        with self._lock:
            if not self._inside:
                self._was_on = gc.isenabled()
                gc.disable()
            self._inside += 1

    def __exit__(self, *_: object) -> None:
        with self._lock:
            self._inside -= 1
            if not self._inside and self._was_on:
                gc.enable()


_collector = _Collector()
if hasattr(os, "register_at_fork"):
    os.register_at_fork(after_in_child=_collector.after_fork)


def _fields(kind: Any, *names: str) -> List[Tuple[str, Any]]:
    """Fields of a struct that have the same type."""
    return [(name, kind) for name in names]


class _Report(ctypes.Structure):
    _fields_ = [
        *_fields(ctypes.c_uint32, "fault", "section", "terminal", "unused"),
        *_fields(ctypes.c_uint64, "number", "start", "end", "needed", "expected"),
    ]


class _Text(ctypes.Structure):
    _fields_ = [
        *_fields(ctypes.c_uint32, "status", "unused"),
        *_fields(ctypes.c_uint64, "parts_end", "expected_end"),
        ("report", _Report),
    ]


class _Counts(ctypes.Structure):
    _fields_ = [*_fields(ctypes.c_uint32, "fault", "section"), *_fields(ctypes.c_uint64, "terminals", "rules", "bytes")]


class _Built(ctypes.Structure):
    _fields_ = [
        *_fields(ctypes.c_uint32, "fault", "file"),
        *_fields(ctypes.c_uint64, "line", "column", "needed", "shift_reduce", "reduce_reduce"),
    ]


class TableFault(ValueError):
    """The bytes aren't a valid table file, or (90) its tables are faulty on a text.

    `number` is the error code, 80 to 85 or 90. `section` is the section that is out of range for 84, and otherwise 0.
    """

    def __init__(self, number: int, section: int) -> None:
        super().__init__(number, section)
        self.number, self.section = number, section

    def __str__(self) -> str:
        return f"tables: fault {self.number}" + (f", section {self.section}" if self.section else "")


class BuildFault(ValueError):
    """A lex file, a yacc file, or both together are rejected.

    `number` is the error code. `file` is "lex" or "yacc", and `line` and `column` are the location in it. For an error
    in both files together, or in all patterns together, `file` is None, and `line` and `column` are 0.
    """

    def __init__(self, number: int, file: Optional[str], line: int, column: int) -> None:
        super().__init__(number, file, line, column)
        self.number, self.file, self.line, self.column = number, file, line, column

    def __str__(self) -> str:
        where = f"{self.file}:{self.line}:{self.column}: " if self.file else ""
        return f"{where}fault {self.number}"


class SyntaxFault(ValueError):
    """A syntax error: an unexpected token, an unexpected end of the text, or a byte that no rule matches.

    `number` is that of the token, or 0 if no rule matches. `offset`, `line` and `column` are its location. `name` is
    the name of the token, "$end" for the end, or None if no rule matches. `text` has its bytes, or the byte that no
    rule matches. `expected` has the names of the expected tokens. `excerpt` is the line of the text at the location, or
    the part around it of a line above 160 bytes, and below it a caret under the column; it is empty if that line is.
    """

    def __init__(
        self,
        number: int,
        offset: int,
        line: int,
        column: int,
        name: Optional[str],
        text: bytes,
        expected: Tuple[str, ...],
        excerpt: str = "",
    ) -> None:
        super().__init__(number, offset, line, column, name, text, expected)
        self.number, self.offset, self.line, self.column = number, offset, line, column
        self.name, self.text, self.expected, self.excerpt = name, text, expected, excerpt

    def __str__(self) -> str:
        if self.name is None:
            what = f"no rule matches {self.text!r}"
        else:
            what = "unexpected " + ("end of the text" if self.name == "$end" else f"{self.name} {self.text!r}")
        expected = f"; expected: {' '.join(self.expected)}" if self.expected else ""
        return f"{self.line}:{self.column}: {what}{expected}"

    def show(self, file: str = "-") -> str:
        """Returns the message for a user: `FILE:LINE:COLUMN: error: ..`, the source line and a caret, as `lytab run
        --where` prints them, and then for an unexpected token the line `expected: ..`. Each line ends in a newline."""
        if self.name is None:
            what = f"no rule matches {_quoted(self.text)}"
        elif self.name == "$end":
            what = "unexpected end of the text"
        else:
            what = f"unexpected {_quoted(self.text[:_LONGEST])}{'..' if len(self.text) > _LONGEST else ''}"
        expected = "" if self.name is None else " ".join(["expected:", *self.expected]) + "\n"
        return f"{file}:{self.line}:{self.column}: error: {what}\n{self.excerpt}{expected}"


def _quoted(text: bytes, quote: str = "'") -> str:
    """Bytes in quotes, as lytab prints them."""
    meant = {9: "\\t", 10: "\\n", 92: "\\\\", ord(quote): f"\\{quote}"}
    inner = (meant.get(byte) or (chr(byte) if 32 <= byte <= 126 else f"\\x{byte:02x}") for byte in text)
    return quote + "".join(inner) + quote


def _excerpt(text: bytes, offset: int, column: int) -> str:
    """The line of a text at an offset, or the part around it of a long one, and a caret under the column."""
    first, end = offset - (column - 1), text.find(b"\n", offset)
    end = len(text) if end < 0 else end
    if first < end and text[end - 1] == 13:
        end -= 1
    if first >= end:
        return ""
    line, passed = text[first:end], offset - first
    start = _start_of_unit(line, min(max(passed - _WIDEST // 2, 0), len(line))) if len(line) > _WIDEST else 0
    shown = line[start:]
    before, behind = "..." if start > 0 else "", ""
    if len(shown) > _WIDEST:
        shown, behind = shown[: _start_of_unit(shown, _WIDEST)], "..."
    units = list(_units(shown))
    blanks = "".join("\t" if it == "\t" else " " * len(it) for at, it in units if at < passed - start)
    return f"    {before}{''.join(it for _, it in units)}{behind}\n    {' ' * len(before)}{blanks}^\n"


def _units(line: bytes) -> Iterator[Tuple[int, str]]:
    """The characters of a line, and the bytes that belong to none: the offset of each, and how it is shown. Nothing of
    that moves a terminal's cursor or is invisible: control bytes of ASCII other than a tab are shown as `?`, and
    characters that aren't printable and bytes that are no UTF-8 as escapes."""
    at = 0
    while at < len(line):
        found = _first_character(line[at : at + 4])
        size = len(found.encode()) if found else 1
        if found is None or _UNSEEN.match(found):
            yield at, "".join(f"\\x{it:02x}" for it in line[at : at + size])
        else:
            yield at, found if found == "\t" or " " <= found != "\x7f" else "?"
        at += size


def _first_character(text: bytes) -> Optional[str]:
    """The character at the start of bytes, if these are UTF-8."""
    if not text:
        return None
    first = text[0]
    size = 1 if first < 0x80 else 2 if first < 0xE0 else 3 if first < 0xF0 else 4
    try:
        return text[:size].decode()
    except UnicodeDecodeError:
        return None


def _start_of_unit(line: bytes, offset: int) -> int:
    """The offset of the first byte of the character at an offset, or the offset itself if no character is there."""
    for back in range(4):
        start = max(offset - back, 0)
        found = _first_character(line[start : start + 4])
        if found and len(found.encode()) > max(back, 1):
            return start
    return offset


class Token:
    """A token of a tree: the name of its terminal, its bytes, and its span `text[start:end]` in the text.

    Two tokens are equal if their names and bytes are, wherever they are. So they can't be keys of a dict, like lists.
    """

    __slots__ = ("name", "text", "start", "end")
    __match_args__ = ("name", "text")
    __hash__ = None  # type: ignore[assignment]

    def __init__(self, name: str, text: bytes, start: int, end: int) -> None:
        self.name, self.text, self.start, self.end = name, text, start, end

    def __repr__(self) -> str:
        return f"Token({self.name!r}, {self.text!r}, {self.start}, {self.end})"

    def __eq__(self, other: object) -> bool:
        if not isinstance(other, Token):
            return NotImplemented
        return self.name == other.name and self.text == other.text

    def __deepcopy__(self, memo: Dict[int, Any]) -> Token:
        return Token(self.name, self.text, self.start, self.end)

    def __reduce__(self) -> Tuple[Type[Token], Tuple[str, bytes, int, int]]:
        return Token, (self.name, self.text, self.start, self.end)


class Node:
    """A node of a tree: its constructor, its children, and its span `text[start:end]` in the text. A child that is an
    empty tree is None.

    Two nodes are equal if lytab prints the same for them: constructors, and the names and bytes of tokens, are the same
    everywhere. Spans don't count. So nodes can't be keys of a dict, like lists. `match` takes a node apart by
    `case Node("Add", (left, right))`.

    Copies and pickles of a node have all that it contains, at any depth. A pickle has the text too.
    """

    __slots__ = ("name", "children", "start", "end", "_source")
    __match_args__ = ("name", "children")
    __hash__ = None  # type: ignore[assignment]

    def __init__(self, name: str, children: List[Part], start: int, end: int, source: Optional[bytes] = None) -> None:
        """Takes the attributes, and the whole text that the span is of, which `text` needs."""
        self.name, self.children, self.start, self.end, self._source = name, children, start, end, source

    def __repr__(self) -> str:
        return f"Node({self.name!r}, [{len(self.children)} children], {self.start}, {self.end})"

    def __eq__(self, other: object) -> bool:
        if not isinstance(other, Node):
            return NotImplemented
        return _are_equal(self, other)

    def __copy__(self) -> Node:
        return Node(self.name, list(self.children), self.start, self.end, self._source)

    def __deepcopy__(self, memo: Dict[int, Any]) -> Node:
        counts, nodes, others = _taken_apart(self)
        return _put_together(counts, nodes, [copy.deepcopy(other, memo) for other in others])

    def __reduce__(self) -> Tuple[Callable[..., Node], Tuple[Any, ...]]:
        return _put_together, _taken_apart(self)

    @property
    def text(self) -> bytes:
        """The bytes of its span. Raises ValueError if the node was made without its text."""
        if self._source is None:
            raise ValueError(f"the node {self.name} was made without its text")
        return self._source[self.start : self.end]

    def walk(self, order: str = "pre") -> Iterator[Part]:
        """Yields the node and everything in it: each parent before its children, or after them if the order is "post".
        Raises ValueError for any other order."""
        return walk(self, order)

    def at(self, byte: int) -> Optional[Union[Node, Token]]:
        """Returns the innermost part whose span has this byte, or None if the node's own span doesn't.

        On the way to that part each step takes logarithmic time in the number of children, if few of them are None and
        they are in the order of the text; there, all children of the part are tried once. Requires that the spans of
        two children have no byte in common, as in every tree of a text.
        """
        if not self.start <= byte < self.end:
            return None
        found: Union[Node, Token] = self
        while isinstance(found, Node):
            inner = _child_at(found.children, byte)
            if inner is None:
                break
            found = inner
        return found

    def flat(self, name: str, rest: Optional[str] = None) -> List[Any]:
        """Returns the items of a list of nodes of this name, as the function `flat` does."""
        return flat(self, name, rest)

    def pretty(self) -> str:
        """Returns the tree as indented lines, as the function `pretty` does."""
        return pretty(self)


Part = Union[Node, Token, None]
Buffer = Union[bytes, bytearray, memoryview]


def walk(part: Part, order: str = "pre") -> Iterator[Part]:
    """Yields a part of a tree and everything in it, without recursion: each parent before its children, or after them
    if the order is "post". Raises ValueError for any other order."""
    if order == "pre":
        return _before(part)
    if order == "post":
        return _after(part)
    raise ValueError(f'the order must be "pre" or "post", not {order!r}')


def _before(part: Part) -> Iterator[Part]:
    waiting = [part]
    while waiting:
        next_ = waiting.pop()
        yield next_
        if isinstance(next_, Node):
            waiting.extend(reversed(next_.children))


def _after(part: Part) -> Iterator[Part]:
    around: List[Tuple[Part, Iterator[Part]]] = []
    while True:
        if isinstance(part, Node):
            around.append((part, iter(part.children)))
        else:
            yield part
        while around:
            node, children = around[-1]
            try:
                part = next(children)
                break
            except StopIteration:
                around.pop()
                yield node
        else:
            return


def flat(part: Part, name: str, rest: Optional[str] = None) -> List[Any]:
    """Returns the items of a list that a left- or right-recursive rule builds from nodes of this name, in order and
    without recursion.

    One child of such a node is the rest of the list, and the others are items, whatever they are: for `list : item |
    list ',' item { $$ = List($1,$3); }` the rest is the first child, and for `list : item | item ',' list { $$ =
    List($1,$3); }` the last. As the rest, None or a node of this name without children is an empty list, and a part
    with another name is the only item.

    `rest` is "first" or "last". If it isn't given, it is the child of `part` that has the name too, the first before
    the last; if neither has it, the first if that is None, and otherwise the last. So give it if an item may be a list
    of this name. Such an item in the place of the rest, the first or the last of all, is read as the rest. Raises
    ValueError for any other `rest`.
    """
    if rest not in ("first", "last", None):
        raise ValueError(f'the rest must be "first" or "last", not {rest!r}')
    inner: Any = part
    rest = rest or _rest_of(inner, name)
    groups: List[List[Any]] = []
    while _is_list(inner, name) and inner.children:
        children = inner.children
        inner = children[0] if rest == "first" else children[-1]
        groups.append(children[1:] if rest == "first" else children[:-1])
    groups.append([] if inner is None or _is_list(inner, name) else [inner])
    return [item for group in (reversed(groups) if rest == "first" else groups) for item in group]


def _rest_of(part: Any, name: str) -> str:
    """Which child of a node is probably the rest of its list."""
    if not isinstance(part, Node) or not part.children:
        return "last"
    first, last = part.children[0], part.children[-1]
    return "first" if _is_list(first, name) or first is None and not _is_list(last, name) else "last"


def pretty(part: Part) -> str:
    """Returns a tree as text, with a line for each part: a node's constructor, a token as `NUMBER"5"`, and `()` for an
    empty tree. A child is indented by two blanks more than its parent, at most by 80; the lines of deeper parts begin
    with their depth, as in `41: Negate`. So the text is as long as the tree is large, whatever its depth.
    """
    lines, waiting = [], [(part, 0)]
    while waiting:
        next_, depth = waiting.pop()
        if isinstance(next_, Node):
            said = next_.name
            waiting.extend((child, depth + 1) for child in reversed(next_.children))
        elif isinstance(next_, Token):
            said = next_.name + _quoted(next_.text, '"')
        else:
            said = "()" if next_ is None else repr(next_)
        deep = f"{depth}: " if depth > _LEVELS else ""
        lines.append(f"{'  ' * min(depth, _LEVELS)}{deep}{said}\n")
    return "".join(lines)


def _is_list(part: Any, name: str) -> bool:
    return isinstance(part, Node) and part.name == name


def _are_equal(one: Any, other: Any) -> bool:
    """Whether two trees are equal, without recursion."""
    waiting = [(one, other)]
    while waiting:
        one, other = waiting.pop()
        if not (isinstance(one, Node) and isinstance(other, Node)):
            if one is not other and one != other:
                return False
        elif one is not other:
            if one.name != other.name or len(one.children) != len(other.children):
                return False
            waiting.extend(zip(one.children, other.children))
    return True


def _child_at(children: List[Part], byte: int) -> Optional[Union[Node, Token]]:
    """The child whose span has a byte, or None. An action may have reordered them, so if it isn't found where it is in
    the order of the text, all are tried."""
    first, end = 0, len(children)
    while first < end:
        middle = (first + end) // 2
        place = next((it for it in range(middle, end) if children[it] is not None), end)
        child = children[place] if place < end else None
        if child is None or byte < child.start:
            end = middle
        elif byte < child.end:
            return child
        else:
            first = place + 1
    return next((it for it in children if it is not None and it.start <= byte < it.end), None)


_Shape = Tuple[List[int], List[Tuple[str, int, int, Optional[bytes]]], List[Any]]


def _taken_apart(tree: Node) -> _Shape:
    """A tree as lists, in postorder: for each part the number of its children, or -1 if it isn't a node; what each node
    has besides; and the parts that aren't nodes."""
    counts: List[int] = []
    nodes: List[Tuple[str, int, int, Optional[bytes]]] = []
    others: List[Any] = []
    for part in walk(tree, "post"):
        if isinstance(part, Node):
            counts.append(len(part.children))
            nodes.append((part.name, part.start, part.end, part._source))
        else:
            counts.append(-1)
            others.append(part)
    return counts, nodes, others


def _put_together(counts: List[int], nodes: List[Tuple[str, int, int, Optional[bytes]]], others: List[Any]) -> Node:
    """The tree of such lists."""
    made: List[Any] = []
    next_node, next_other = iter(nodes), iter(others)
    with _collector:
        for count in counts:
            if count < 0:
                made.append(next(next_other))
                continue
            name, start, end, source = next(next_node)
            first = len(made) - count
            made[first:] = [Node(name, made[first:], start, end, source)]
    (tree,) = made
    assert isinstance(tree, Node)
    return tree


_Method = TypeVar("_Method", bound=Callable[..., Any])


def constructs(*names: str) -> Callable[[_Method], _Method]:
    """Marks a method of a Transformer as that of the constructors of these names, whatever its own name is."""

    def marked(method: _Method) -> _Method:
        method._constructors = names  # type: ignore[attr-defined]
        return method

    return marked


class Transformer:
    """Computes a value from a tree, bottom-up and without recursion. A subclass has a method for each constructor:

        class Calculator(lytab.Transformer):
            def token(self, token):
                return int(token.text)

            def Add(self, node, left, right):
                return left + right

        print(Calculator(tables).transform(tables.parse(b"1 + 2")))

    A method gets the node, then the value of each child. Each public method of a subclass is that of the constructor
    with its name, except `default`, `token`, `nothing` and `transform`; `@constructs("Name", ..)` gives others.
    """

    def __init__(self, tables: Tables) -> None:
        """Takes the tables whose trees it is for. Raises ValueError if a method's constructor isn't one of theirs."""
        self._methods: Dict[str, Callable[..., Any]] = {}
        known = set(tables.rules) - {""}
        for constructor, name in _methods_of(type(self)).items():
            if constructor not in known:
                near = difflib.get_close_matches(constructor, known, 1)
                hint = f"; did you mean {near[0]}?" if near else ""
                what = f"{type(self).__name__}.{name}: the tables have no constructor {constructor}"
                raise ValueError(what + hint)
            self._methods[constructor] = getattr(self, name)

    def transform(self, part: Any) -> Any:
        """Returns the value of a part of a tree. What a method raises ends the call."""
        values: List[Any] = []
        for inner in walk(part, "post"):
            if isinstance(inner, Node):
                first = len(values) - len(inner.children)
                method = self._methods.get(inner.name, self.default)
                values[first:] = [method(inner, *values[first:])]
            else:
                values.append(self.nothing() if inner is None else self.token(inner))
        return values[0]

    def default(self, node: Node, *values: Any) -> Any:
        """The value of a node whose constructor has no method: a new node with the values as children."""
        return Node(node.name, list(values), node.start, node.end, node._source)

    def token(self, token: Token) -> Any:
        """The value of a token: the token itself."""
        return token

    def nothing(self) -> Any:
        """The value of an empty tree: None."""
        return None


def _methods_of(kind: Type[Transformer]) -> Dict[str, str]:
    """The name of the method for each constructor that a class has one for. That of the nearest class counts."""
    found: Dict[str, str] = {}
    seen = set(vars(Transformer))
    for above in kind.__mro__:
        names = [name for name in vars(above) if name not in seen and _is_method(vars(above)[name])]
        seen.update(vars(above))
        here: Dict[str, str] = {}
        for name in names:
            value = vars(above)[name]
            own = () if name.startswith("_") else (name,)
            marked = getattr(getattr(value, "__func__", value), "_constructors", own)
            for constructor in marked:
                if here.setdefault(constructor, name) != name:
                    both = f"{above.__name__}.{here[constructor]} and {above.__name__}.{name}"
                    raise ValueError(f"{both} are both for the constructor {constructor}")
        found = {**here, **found}
    return found


def _is_method(value: object) -> bool:
    return isinstance(value, (staticmethod, classmethod)) or callable(value) and not isinstance(value, type)


@functools.lru_cache(maxsize=None)
def _library() -> ctypes.CDLL:
    """The library, with the types of its functions."""
    name = "liblytab.so.1"
    installed = [above / "lib" / name for above in pathlib.Path(__file__).resolve().parents]
    path = os.environ.get("LYTAB_LIBRARY") or next((str(it) for it in installed if it.is_file()), name)
    library = ctypes.CDLL(path)
    size, u64 = ctypes.c_size_t, ctypes.POINTER(ctypes.c_uint64)
    bytes_, block = [ctypes.c_char_p, size], [ctypes.c_void_p, size]
    answer = [*bytes_, *bytes_, *block, ctypes.POINTER(_Report)]
    for name, kinds in (
        ("answer", answer),
        ("json", answer),
        ("parse", [*bytes_, *bytes_, *block, *block, ctypes.POINTER(_Report)]),
        ("parse_all", [*bytes_, *bytes_, *block, *block, *block, *block, ctypes.POINTER(_Report)]),
        ("parse_tokens", [*bytes_, *bytes_, *bytes_, *block, *block, ctypes.POINTER(_Report)]),
        ("names", [*bytes_, *block, *block, ctypes.POINTER(_Counts)]),
        ("build", [*bytes_, *bytes_, *block, ctypes.POINTER(_Built)]),
        ("locate", [*bytes_, size, u64, u64]),
        ("version", []),
    ):
        function = getattr(library, f"lytab_{name}")
        function.argtypes, function.restype = kinds, None if name == "locate" else ctypes.c_uint32
    if library.lytab_version() != VERSION:
        raise ImportError(f"{path} has version {library.lytab_version()} of the calls, and this file needs {VERSION}")
    return library


def _bytes(value: Buffer, what: str) -> bytes:
    """Returns bytes, a bytearray or another buffer as bytes. Raises TypeError for a str, an int, and all else."""
    if isinstance(value, bytes):
        return bytes(value)
    try:
        return memoryview(value).tobytes()
    except TypeError:
        hint = "; encode it first" if isinstance(value, str) else ""
        raise TypeError(f"{what} must be bytes, not {type(value).__name__}{hint}") from None


def locate(text: Buffer, byte: int) -> Tuple[int, int]:
    """Returns the line and the column of a byte of a text; for an offset after the text, those of its end.

    Raises TypeError if the text isn't bytes or the offset isn't an int, and ValueError if the offset is negative."""
    text = _bytes(text, "the text")
    if operator.index(byte) < 0:
        raise ValueError(f"the offset {byte} is negative")
    line, column = ctypes.c_uint64(), ctypes.c_uint64()
    _library().lytab_locate(text, len(text), byte, ctypes.byref(line), ctypes.byref(column))
    return line.value, column.value


def _wanted(status: int, fault: int, section: int) -> None:
    """Raises the exception of a status that isn't a result."""
    if status == _FAULT:
        raise TableFault(fault, section)
    if status == _MEMORY:
        raise MemoryError("lytab: out of memory")
    if status not in (_DONE, _REFUSED):
        raise RuntimeError(f"lytab: status {status}")


def _build(lex: bytes, yacc: bytes) -> Tuple[bytes, Tuple[int, int]]:
    """Builds the table file of a lex file and a yacc file. Returns it with the number of conflicts of each kind."""
    room = 64 * 1024
    while True:
        block, built = ctypes.create_string_buffer(room), _Built()
        words = [lex, len(lex), yacc, len(yacc), block, room, ctypes.byref(built)]
        status = _library().lytab_build(*words)
        if status != _SHORT:
            break
        room = built.needed
    if status == _FAULT:
        raise BuildFault(built.fault, _FILES[built.file], built.line, built.column)
    _wanted(status, 0, 0)
    return block.raw[: built.needed], (built.shift_reduce, built.reduce_reduce)


def _names(tables: bytes) -> Tuple[Tuple[str, ...], Tuple[str, ...]]:
    """Returns the names of the terminals and of the rules of a table file."""
    rooms = 256, 4096
    while True:
        ends, names, counts = (ctypes.c_uint64 * rooms[0])(), ctypes.create_string_buffer(rooms[1]), _Counts()
        words = [tables, len(tables), ends, rooms[0], names, rooms[1], ctypes.byref(counts)]
        status = _library().lytab_names(*words)
        if status != _SHORT:
            break
        rooms = max(rooms[0], counts.terminals + counts.rules), max(rooms[1], counts.bytes)
    _wanted(status, counts.fault, counts.section)
    places = [0, *ends[: counts.terminals + counts.rules]]
    bytes_ = names.raw
    found = [bytes_[start:end].decode("latin-1") for start, end in zip(places, places[1:])]
    return tuple(found[: counts.terminals]), tuple(found[counts.terminals :])


class Tables:
    """A table file, with which texts are parsed.

    `bytes` is the file, as `lytab build` writes it. `terminals` has the names of terminals 0, 1, ..; `rules` has the
    constructors of rules 1, 2, .., empty for rules that make no node. `conflicts` has the number of shift/reduce and of
    reduce/reduce conflicts of tables that were built here, and is otherwise None.
    """

    def __init__(self, tables: Buffer) -> None:
        """Takes the bytes of a table file. Raises TableFault if they aren't valid, and TypeError for anything but
        bytes."""
        self.bytes = _bytes(tables, "the tables")
        self.terminals, self.rules = _names(self.bytes)
        self.conflicts: Optional[Tuple[int, int]] = None

    @classmethod
    def open(cls, path: Union[str, os.PathLike[str]]) -> Tables:
        """Reads the table file at a path. Raises OSError if it can't be read, and TableFault if it isn't valid."""
        return cls(pathlib.Path(path).read_bytes())

    @classmethod
    def build(cls, lex: Buffer, yacc: Buffer) -> Tables:
        """Builds the tables of a lex file and a yacc file, given as bytes. Raises BuildFault if these are rejected, and
        TypeError if they aren't bytes."""
        tables, conflicts = _build(_bytes(lex, "the lex file"), _bytes(yacc, "the yacc file"))
        made = cls(tables)
        made.conflicts = conflicts
        return made

    def answer(self, text: Buffer) -> bytes:
        """Returns what `lytab run` prints for a text: a line with its tree, or the syntax error. Raises TableFault (90)
        and TypeError."""
        return self._said(_library().lytab_answer, _bytes(text, "the text"))

    def json(self, text: Buffer) -> bytes:
        """Returns what `lytab run --json` prints for a text: a line of JSON. Raises TableFault (90) and TypeError."""
        return self._said(_library().lytab_json, _bytes(text, "the text"))

    def _said(self, call: Callable[..., int], text: bytes) -> bytes:
        room = 4 * len(text) + 1024
        while True:
            block, report = ctypes.create_string_buffer(room), _Report()
            status = call(self.bytes, len(self.bytes), text, len(text), block, room, ctypes.byref(report))
            if status != _SHORT:
                break
            room = report.needed
        _wanted(status, report.fault, report.section)
        return block.raw[: report.needed]

    def parse(self, text: Buffer) -> Part:
        """Returns the tree of a text: a node, a token, or None for an empty tree. Raises SyntaxFault if it has none,
        TableFault if the tables are faulty on it (90), and TypeError if it isn't bytes."""
        text = _bytes(text, "the text")
        return self._parsed(_library().lytab_parse, text, [text, len(text)])

    def parse_tokens(self, text: Buffer, tokens: Iterable[Tuple[Union[int, str], int, int]]) -> Part:
        """Parses tokens of a text that the caller has found, in this order. Returns their tree.

        A token is the name or the number of its terminal, and its start and end in the text. Raises SyntaxFault if they
        have no tree, ValueError if a token is invalid: its terminal doesn't exist or is that of the end, or its span
        isn't in the text; and TypeError if a token isn't such a tuple.
        """
        text = _bytes(text, "the text")
        numbers = {name: number for number, name in enumerate(self.terminals)}
        given = [_token(place, token, numbers) for place, token in enumerate(tokens, 1)]
        for place, (terminal, start, end) in enumerate(given, 1):
            if not (0 < terminal < len(self.terminals) and 0 <= start <= end <= len(text)):
                raise ValueError(f"token {place} is none: terminal {terminal}, from {start} to {end}")
        packed = b"".join(_GIVEN.pack(terminal, 0, start, end) for terminal, start, end in given)
        return self._parsed(_library().lytab_parse_tokens, text, [text, len(text), packed, len(given)])

    def _parsed(self, call: Callable[..., int], text: bytes, what: List[object]) -> Part:
        """Returns the tree that a call finds for its input in a text."""
        expected = (ctypes.c_uint32 * len(self.terminals))()
        room = len(text) // 4 + 64
        while True:
            parts, report = bytearray(room * _PART.size), _Report()
            blocks = [_written(parts), room, expected, len(expected)]
            status = call(self.bytes, len(self.bytes), *what, *blocks, ctypes.byref(report))
            del blocks
            if status != _SHORT:
                break
            room = report.needed
        _wanted(status, report.fault, report.section)
        if status == _REFUSED:
            raise self._refused(text, report, expected[: report.expected])
        del parts[report.needed * _PART.size :]
        return self._take_tree(text, parts, 0)

    def parse_all(self, texts: Iterable[Buffer]) -> List[Union[Part, SyntaxFault, TableFault]]:
        """Parses many texts, and reads the tables once for all. Returns for each its tree, or the exception that parse
        would raise. Raises TypeError if one of them isn't bytes."""
        texts = [_bytes(text, f"text {place}") for place, text in enumerate(texts, 1)]
        ends = (ctypes.c_uint64 * len(texts))(*itertools.accumulate(map(len, texts)))
        joined, told = b"".join(texts), (_Text * len(texts))()
        rooms = len(joined) + 4 * len(texts) + 64, 4 * len(texts) + 64
        while True:
            parts, expected = bytearray(rooms[0] * _PART.size), (ctypes.c_uint32 * rooms[1])()
            report = _Report()
            blocks = [ends, len(ends), told, len(told), _written(parts), rooms[0], expected, rooms[1]]
            words = [self.bytes, len(self.bytes), joined, len(joined), *blocks, ctypes.byref(report)]
            status = _library().lytab_parse_all(*words)
            del blocks, words
            if status != _SHORT and report.expected <= rooms[1]:
                break
            rooms = max(rooms[0], report.needed), max(rooms[1], report.expected)
        _wanted(status, report.fault, report.section)
        return self._results(texts, told, parts, expected)

    def _results(self, texts: List[bytes], told: Any, parts: bytearray, expected: Any) -> List[Any]:
        """Returns the tree or the exception of each text, from what a call has written."""
        said: List[Union[Part, SyntaxFault, TableFault]] = []
        del parts[(told[-1].parts_end if texts else 0) * _PART.size :]
        for place in reversed(range(len(texts))):
            text, one = texts[place], told[place]
            first, wanted = (told[place - 1].parts_end, told[place - 1].expected_end) if place else (0, 0)
            if one.status == _DONE:
                said.append(self._take_tree(text, parts, first))
            elif one.status == _REFUSED:
                said.append(self._refused(text, one.report, expected[wanted : one.expected_end]))
            else:
                said.append(TableFault(one.report.fault, one.report.section))
        return said[::-1]

    def _refused(self, text: bytes, report: _Report, expected: List[int]) -> SyntaxFault:
        """Returns the exception for a syntax error in a text."""
        names = tuple(self.terminals[terminal] for terminal in expected)
        name = self.terminals[report.terminal] if report.number else None
        bytes_ = text[report.start : report.end if report.number else report.start + 1]
        line, column = locate(text, report.start)
        excerpt = _excerpt(text, report.start, column)
        return SyntaxFault(report.number, report.start, line, column, name, bytes_, names, excerpt)

    def _take_tree(self, text: bytes, parts: bytearray, first: int) -> Part:
        """Returns the tree of the parts from number `first` to the end of a block, and removes them from the block.

        It goes from the last part to the first, so that each node is made after its children, and the block shrinks as
        the tree grows."""
        waiting: List[Part] = []
        ends: List[int] = []
        index = len(parts) // _PART.size
        with _collector:
            while index > first:
                from_ = max(first, index - _AT_ONCE)
                several = list(_PART.iter_unpack(parts[from_ * _PART.size :]))
                del parts[from_ * _PART.size :]
                self._grow(text, several, index - first, waiting, ends)
                index = from_
        return waiting[0]

    def _grow(
        self, text: bytes, parts: List[Tuple[int, ...]], index: int, waiting: List[Part], ends: List[int]
    ) -> None:
        """Makes the parts before an index. Those whose node isn't made yet are `waiting`, the first of them at its end,
        and `ends` has for each the index after its last part."""
        rules, terminals, last_start = self.rules, self.terminals, -1
        token, node, add, add_end = Token, Node, waiting.append, ends.append
        for kind, number, start, end, next_ in reversed(parts):
            # (equal numbers of neighbours are one object, which saves an eighth of the memory)
            if start == last_start:
                start = last_start
            else:
                last_start = start
            if kind == _TOKEN:
                add(token(terminals[number], text[start:end], start, end))
            elif kind == _NODE:
                at = len(ends)
                if next_ != index:
                    at -= 1
                    while ends[at] != next_:
                        at -= 1
                    children = waiting[at:]
                    children.reverse()
                    del waiting[at:], ends[at:]
                    last = children[-1]
                    if last is not None and last.end == end:
                        end = last.end
                else:
                    children = []
                add(node(rules[number - 1], children, start, end, text))
            else:
                add(None)
            add_end(next_)
            index -= 1


def _written(block: bytearray) -> ctypes.Array[ctypes.c_char]:
    """A block as an argument of a call that writes it. As long as it is in use, the block can't be resized."""
    return (ctypes.c_char * len(block)).from_buffer(block)


def _token(place: int, token: Any, numbers: Dict[str, int]) -> Tuple[int, int, int]:
    """A token of the caller, with the number of its terminal, or -1 if no terminal has its name."""
    try:
        terminal, start, end = token
        number = numbers.get(terminal, -1) if isinstance(terminal, str) else operator.index(terminal)
        return number, operator.index(start), operator.index(end)
    except (TypeError, ValueError):
        raise TypeError(f"token {place} must be a terminal, a start and an end, not {token!r}") from None
