"""The answer to a text as JSON, made of the plain one: written apart from lytab, from docs/trees.md and
docs/texts-and-faults.md alone. `json` of Python writes the strings."""
import json
import re
import urllib.parse

# a name, which is a literal in single quotes or any bytes but a double quote, and the text behind it in double quotes
LITERAL = rb"'(?:[^'\\]|\\x[0-9a-f]{2}|\\.)'"
LEAF = re.compile(rb"(" + LITERAL + rb'|[^"\'(),]*)"((?:[^"\\]|\\x[0-9a-f]{2}|\\.)*)"', re.DOTALL)
NODE = re.compile(rb"([A-Za-z_][A-Za-z_0-9.]*)\(")
ESCAPE = re.compile(rb"\\(x[0-9a-f]{2}|.)", re.DOTALL)
SYNTAX = re.compile(rb"syntax error at token (\d+), byte (\d+): ")
END = re.compile(rb"syntax error at end, token (\d+), byte (\d+)\n")
NO_RULE = re.compile(rb"no rule matches at byte (\d+)\n")
EXPECTED = re.compile(rb" (" + LITERAL + rb"|[^ \n]+)")


def unescaped(text):
    """The bytes that stand between quotes."""
    meant = {b"n": b"\n", b"t": b"\t"}
    return ESCAPE.sub(
        lambda found: bytes([int(found[1][1:], 16)]) if len(found[1]) == 3 else meant.get(found[1], found[1]), text
    )


def written(text):
    """A JSON string, in which all characters stand for themselves that may."""
    return json.dumps(text, ensure_ascii=False).encode()


def name(bytes_):
    """A name: each byte is the character of its number."""
    return written(bytes_.decode("latin-1"))


def content(text):
    """The bytes of a token: a string where they are UTF-8, or their numbers."""
    try:
        return b'"text":' + written(text.decode("utf-8"))
    except UnicodeDecodeError:
        return b'"bytes":[' + b",".join(b"%d" % byte for byte in text) + b"]"


def leaf(found):
    return b'{"token":' + name(found[1]) + b"," + content(unescaped(found[2])) + b"}"


def tree(text):
    """A tree's JSON. It holds open nodes in a list, so that depth is no matter."""
    out, at, waiting = [], 0, []
    while True:
        node = NODE.match(text, at)
        if text.startswith(b"()", at):
            out.append(b"null")
            at += 2
        elif node and not LEAF.match(text, at):
            out.append(b'{"node":' + name(node[1]) + b',"children":[')
            at = node.end()
            if not text.startswith(b")", at):
                waiting.append(True)
                continue
            out.append(b"]}")
            at += 1
        else:
            found = LEAF.match(text, at)
            if not found:
                raise ValueError(f"no tree at {at}: {text[at:at + 40]}")
            out.append(leaf(found))
            at = found.end()
        while waiting and text.startswith(b")", at):
            waiting.pop()
            out.append(b"]}")
            at += 1
        if not waiting:
            if at != len(text):
                raise ValueError(f"more than a tree at {at}: {text[at:at + 40]}")
            return b"".join(out)
        out.append(text[at : at + 1])
        at += 1


def location(text, at):
    """An offset of a text, with its line and its column."""
    line = text.rfind(b"\n", 0, at) + 1
    return b"[%d,%d,%d]" % (at, text.count(b"\n", 0, at) + 1, at - line + 1)


def extent(text, start, end):
    return b',"start":' + location(text, start) + b',"end":' + location(text, end)


def tokens(plain, text):
    """The lines of tokens as JSON. Where each token is follows from the plain lines and the text."""
    lines = plain.splitlines()
    stuck = NO_RULE.fullmatch(lines[-1] + b"\n") if lines else None
    end = int(stuck[1]) if stuck else len(text)
    found = [LEAF.fullmatch(line) for line in (lines[:-1] if stuck else lines)]
    lexemes = [unescaped(it[2]) for it in found]
    out = []
    for leaf_, bytes_, start in zip(found, lexemes, starts(lexemes, text[:end])):
        place = extent(text, start, start + len(bytes_))
        out.append(b'{"token":' + name(leaf_[1]) + place + b"," + content(bytes_) + b"}\n")
    if stuck:
        out.append(b'{"error":"unmatched","byte":%d' % end + extent(text, end, end) + b"}\n")
    return b"".join(out)


def starts(lexemes, text):
    """Where lexemes begin in a text, in their order. A text in which they may be in more than one way is no text for
    such a comparison."""
    first, at = [], 0
    for lexeme in lexemes:
        first.append(text.index(lexeme, at))
        at = first[-1] + len(lexeme)
    last, at = [], len(text)
    for lexeme in reversed(lexemes):
        at = text.rindex(lexeme, 0, at)
        last.insert(0, at)
    if first != last:
        raise ValueError(f"the tokens could begin at {first} or at {last}: change the text")
    return first


def expected(line):
    """The names of an `expected:` line."""
    return b'"expected":[' + b",".join(name(it) for it in EXPECTED.findall(line[len(b"expected:") :])) + b"]"


def answer(plain):
    """The answer as JSON. One that isn't whole has none."""
    if not plain:
        return b""
    found = NO_RULE.fullmatch(plain)
    if found:
        return b'{"error":"unmatched","byte":' + found[1] + b"}\n"
    found = END.match(plain)
    if found:
        numbers = b'"number":' + found[1] + b',"byte":' + found[2]
        return b'{"error":"refused",' + numbers + b',"token":"$end",' + expected(plain[found.end() :]) + b"}\n"
    found = SYNTAX.match(plain)
    if found:
        numbers = b'"number":' + found[1] + b',"byte":' + found[2]
        token = LEAF.match(plain, found.end())
        behind = expected(plain[token.end() + 1 :])
        return b'{"error":"refused",' + numbers + b"," + leaf(token)[1:-1] + b"," + behind + b"}\n"
    return tree(plain[:-1]) + b"\n"


# What `explain --json` says, put into the lines of the text that docs/explain.md describes, as far as it says them; and
# these lines of a text: without those that a caret points into, bytes with which no match begins, and the rules.
NAME_BYTE = re.compile(rb"[A-Za-z0-9_.]")
CARET = re.compile(r"    [ \t]*\^")
NO_PATTERN = re.compile(r"In .* no pattern starts with .*")
MERGED = (
    "    No string of symbols makes both actions possible: only the merging of LR(1) states, as in",
    "    every LALR(1) parser, makes this conflict.",
)
NOT_REACHED = "    Because of how the other conflicts are resolved, the parser never gets here on these tokens."
FIX = (
    "    Precedence can't resolve it: for one of these contexts write a nonterminal of its own, with a",
    "    copy of the rule.",
)


def place_fault(value, files):
    """What is wrong with the places of findings: a span is where its line and column say, it ends on that line, and no
    name goes on behind it."""
    for finding in value["faults"] + value["warnings"] + value["conflicts"]:
        told = finding["rules"][-1] if "rules" in finding else finding
        if finding["start"] and finding["start"][1:] != [told["line"], told["column"]] or not finding["message"]:
            return f"another place or no message: {finding}"
        for place in [finding, *finding.get("related", []), *finding.get("fixes", [])]:
            text = files.get(place["file"])
            if place["start"] and text is not None and not is_span(text, place["start"], place["end"]):
                return f"no span: {place}"
    return ""


def is_span(text, start, end):
    """Whether both are places on one line of a text, and no name goes on behind the second."""
    line = text[: start[0]].count(b"\n") + 1
    right = [line, start[0] - text.rfind(b"\n", 0, start[0])] == start[1:] and start[0] <= end[0] <= len(text)
    inside = text[start[0] : end[0]]
    whole = inside[:1] == b"\\" or not (NAME_BYTE.match(inside[-1:]) and NAME_BYTE.match(text[end[0] : end[0] + 1]))
    return right and whole and b"\n" not in inside and end[1:] == [start[1], start[2] + len(inside)]


def sarif(value, text_of):
    """The log of `explain --sarif` by the findings of `explain --json`; text_of gives the bytes of a file."""
    findings = value["conflicts"] + value["warnings"] if value["accepted"] else value["faults"]
    driver = {"name": "lytab", "rules": []}
    results = [sarif_result(finding, text_of) for finding in findings]
    run = {"tool": {"driver": driver}, "columnKind": "unicodeCodePoints", "results": results}
    return {"version": "2.1.0", "$schema": "https://json.schemastore.org/sarif-2.1.0.json", "runs": [run]}


def sarif_result(finding, text_of):
    """A finding as a result: its message with the suggestion on a line of its own, and its places."""
    text = finding["message"] + ("\n" + finding["advice"] if finding.get("advice") else "")
    made = {"ruleId": finding["code"], "level": finding["severity"], "message": {"text": text}}
    made["locations"] = [sarif_place(finding, text_of)]
    if "related" in finding:
        made["relatedLocations"] = [
            sarif_place(it, text_of) | {"message": {"text": it["message"]}} for it in finding["related"]
        ]
    if "fixes" in finding:
        made["fixes"] = [sarif_fix(it, text_of) for it in finding["fixes"]]
    return made


def sarif_place(place, text_of):
    """The file of a place as a URI, and its region."""
    where = {"artifactLocation": {"uri": sarif_uri(place["file"])}, "region": sarif_region(place, text_of)}
    return {"physicalLocation": where}


def sarif_uri(path):
    """A path as a URI, in which each byte but letters, digits, `-._~/` is a percent escape."""
    return ("file://" if path.startswith("/") else "") + urllib.parse.quote(path, safe="/")


def sarif_region(place, text_of):
    """A span by its line and its columns, which count characters; the first line where there is no span."""
    if not place["start"]:
        return {"startLine": 1}
    text = text_of(place["file"])
    first = place["start"][0] - place["start"][2] + 1
    columns = [len(text[first : it[0]].decode(errors="surrogateescape")) + 1 for it in (place["start"], place["end"])]
    line = place["start"][1]
    return {"startLine": line, "startColumn": columns[0], "endLine": line, "endColumn": columns[1]}


def sarif_fix(fix, text_of):
    """A replacement as a fix."""
    replaced = {"deletedRegion": sarif_region(fix, text_of), "insertedContent": {"text": fix["replacement"]}}
    change = {"artifactLocation": {"uri": sarif_uri(fix["file"])}, "replacements": [replaced]}
    return {"description": {"text": "replace the name"}, "artifactChanges": [change]}


def explained(value):
    """The lines that an answer of `explain --json` says."""
    if not value["accepted"]:
        exchanged = [it for it in value["faults"] if it["name"] == "ExchangedFiles"]
        lines = exchanged_lines(exchanged)
        lines += [line for fault in value["faults"][len(exchanged) :] for line in fault_lines(fault)]
        if value["more"]:
            lines.append("there may be more errors after these")
        return lines
    counts = value["counts"]
    sizes = [counted(counts[name], name[:-1]) for name in ("rules", "terminals", "nonterminals", "states")]
    lines = [f"accepted: {', '.join(sizes)}."]
    lines += [f"{placed(warning)}warning: {warning['text']}" for warning in value["warnings"]]
    if not value["warnings"] and not value["conflicts"]:
        lines.append("No warnings.")
    lines += ["", f"Conflicts: {counts['shift_reduce']} shift/reduce, {counts['reduce_reduce']} reduce/reduce."]
    groups = len(value["conflicts"]) + value["omitted"]
    if value["suggestion"]:
        found = value["suggestion"]
        resolves = f"as the first precedence resolves {found['groups']} of these {counted(groups, 'group')}"
        left = f"{counted(found['remaining'], 'conflict')} remain{'s' if found['remaining'] == 1 else ''}"
        left = left if found["remaining"] else "no conflict remains"
        lines.append(f"Declaring {found['declaration']} {resolves}; {left}.")
    for group in value["conflicts"]:
        lines += group_lines(group)
    if value["omitted"]:
        not_shown = "group of conflicts isn't" if value["omitted"] == 1 else "groups of conflicts aren't"
        lines += ["", f"{value['omitted']:,} more {not_shown} shown."]
    return lines


def text_lines(text):
    """The lines of a text of `explain` that its JSON says too."""
    lines = text.decode().split("\n")[:-1]
    dropped = {at for at, line in enumerate(lines) if CARET.fullmatch(line)}
    lines = [line for at, line in enumerate(lines) if at not in dropped and at + 1 not in dropped]
    if "Rules:" in lines:
        lines = lines[: lines.index("Rules:") - 1]
        lines[0] = lines[0][lines[0].rindex("accepted: ") :]
    return [line for line in lines if not NO_PATTERN.fullmatch(line)]


def counted(count, name):
    return f"{count} {name if count == 1 else name + 's'}"


def placed(it):
    """A file, and where something stands there."""
    return f"{it['file']}: " if it["line"] is None else f"{it['file']}:{it['line']}:{it['column']}: "


def fault_lines(fault):
    advice = [] if fault["advice"] is None else [f"    {fault['advice']}"]
    what = "" if fault["what"] is None else f" {fault['what']}"
    number = "" if fault["number"] is None else f"{fault['number']} "
    return [f"{placed(fault)}error: {number}{fault['name']}{what}: {fault['text']}"] + advice


def exchanged_lines(faults):
    """Both files, or one, and behind them what each is told."""
    advice = {fault["advice"] for fault in faults}
    return [f"{placed(fault)}error: {fault['text']}" for fault in faults] + [f"    {it}" for it in advice]


def row(names):
    """Names, a space before each, and how many are left out."""
    return "".join(f" {it}" if isinstance(it, str) else f" .. {it:,} more .." for it in names)


def group_lines(group):
    rule = group["rules"][-1]["number"]
    chosen = {"shift": "a shift", "rule": f"rule {group['rules'][0]['number']}", "nothing": "an error"}
    after = f"after{row(group['after'])}" if group["after"] else "at the start"
    count = sum(1 if isinstance(it, str) else it for it in group["before"])
    before = row(group["before"][:12]) + (f" and {count - 12} more" if count > 12 else "")
    kind = f"warning: {group['kind']} conflict"
    state = f"{placed(group['rules'][-1])}{kind} in state {group['state']}, {after}, before{before}"
    lines = ["", f"{state}: resolved as {chosen[group['taken']]}, not rule {rule}."]
    lines += [f"    Rule {it['number']} is {placed(it)}{it['text']}" for it in group["rules"]]
    if group["reason"] is not None:
        lines.append(f"    {group['reason']}")
    return lines + shown_lines(group)


def shown_lines(group):
    """How a conflict comes about."""
    lines, ahead = [], f" . {group['before'][0]}"
    if group["search"] == "found":
        lines.append(f"    example:{row(group['example'])}{ahead}")
        if group["tokens"] != group["example"]:
            lines.append(f"    tokens: {row(group['tokens'])}{ahead}")
        if not group["reached"]:
            lines.append(NOT_REACHED)
        if group["derivations"] is None:
            numbers = [it["number"] for it in group["rules"]]
            return lines + [f"    Rule {numbers[0]} and rule {numbers[1]} are the same: remove one of them."]
    if group["search"] == "merged":
        lines += MERGED
    if group["search"] == "limit":
        lines.append("    No example found: the search reached its limit.")
    lines += way_lines(group)
    if group["search"] == "merged":
        return lines + list(FIX)
    return lines + sentence_lines(group) if group["search"] != "skipped" else lines


def way_lines(group):
    if group["derivations"] is None:
        return []
    numbers = [it["number"] for it in group["rules"]]
    labels = [f"rule {it}:" for it in numbers[-2:]]
    if group["kind"] == "shift/reduce":
        labels = ["shift:", f"rule {numbers[-1]}:"]
    return [f"    {label:8}{way and ' ' + way}" for label, way in zip(labels, group["derivations"])]


def sentence_lines(group):
    if group["sentence"] is not None:
        return tree_lines("", group)
    if group["other"] is None:
        return ["    No ambiguous sentence found within the limits of the search."]
    missing = f"    No ambiguous sentence found before {group['before'][0]} within the limits of the search."
    return [missing] + tree_lines(f"Before {group['other']['before']} ", group["other"])


def tree_lines(before, found):
    words = f"{'this' if before else 'This'} sentence has two trees:{row(found['sentence'])}"
    if not found["sentence"]:
        words = f"{'the' if before else 'The'} empty sentence has two trees:"
    return [f"    {before}{words}"] + [f"       {tree and ' ' + tree}" for tree in found["trees"]]
