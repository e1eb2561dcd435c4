#!/usr/bin/env node
// Parses a text with a table file of lytab, as `lytab run` does: a driver of its own in JavaScript, written from
// docs/table-file.md and docs/trees.md, and beside the drivers in C and in Python. It runs in Node.js and in browsers,
// and needs nothing else.
//
//     node lydrive.js TABLES [TEXT] [--json] [--places]
//
// In a program:
//
//     const lydrive = require("./lydrive.js");    // in a page: <script src="lydrive.js"></script>
//     const tables = new lydrive.Tables(bytes);   // a Uint8Array; throws TableFault
//     const tree = lydrive.parse(tables, text);   // text is a Uint8Array too; throws SyntaxFault, and TableFault (90)
//
// A tree is a Node, a Token, or null for an empty tree. `start` and `end` are its span, in bytes. Nothing of it is
// proved. It looks for all faults of a table file, 80 to 85, so it ends on every file and text.
"use strict";

const lydrive = (() => {
  const MOST_REDUCTIONS = 100000;

  /** The table file is rejected (80 to 85, with the section for 84), or its tables are faulty on a text (90). */
  class TableFault extends Error {
    constructor(number, section = 0) {
      super(`tables: fault ${number}` + (section ? ` section ${section}` : ""));
      Object.assign(this, { number, section });
    }
  }

  /**
   * A text has no tree. `number` is that of the unexpected token, one more than there are for the end, or 0 if no rule
   * matches at `start`. `terminal` and `name` are those of the token, or null; `expected` has the expected terminals.
   */
  class SyntaxFault extends Error {
    constructor(tables, number, terminal, start, end, expected = []) {
      const name = terminal === null ? null : tables.names[terminal];
      super(name === null ? `no rule matches at byte ${start}` : `unexpected ${name} at byte ${start}`);
      Object.assign(this, { number, terminal, name, start, end, expected });
    }
  }

  // ---- The table file

  /** The fields of a table file, one after another. */
  class Fields {
    constructor(file) {
      this.file = file;
      this.view = new DataView(file.buffer, file.byteOffset, file.byteLength);
      this.at = 0;
      this.width = 2;
    }

    /** The offset of the next bytes, which are then read. */
    take(count) {
      if (count > this.file.length - this.at) throw new TableFault(82);
      this.at += count;
      return this.at - count;
    }

    u8() {
      return this.file[this.take(1)];
    }

    u16() {
      return this.view.getUint16(this.take(2));
    }

    u32() {
      return this.view.getUint32(this.take(4));
    }

    num() {
      return this.width === 2 ? this.u16() : this.u32();
    }

    /** A text: each byte is the character of its number. */
    text() {
      const length = this.u16();
      return latin(this.file, this.take(length), this.at);
    }

    /** So many numbers of a width in bytes. All of them are there before memory is taken for them. */
    numbers(count, width = this.width) {
      const start = this.take(count * width);
      const read = { 1: "getUint8", 2: "getUint16", 4: "getUint32" }[width];
      return Uint32Array.from({ length: count }, (_, index) => this.view[read](start + index * width));
    }

    list(item) {
      const found = [];
      for (let left = this.num(); left > 0; left -= 1) found.push(item());
      return found;
    }
  }

  /** Rows of entries, laid over one another. */
  class Comb {
    constructor(fields, rows) {
      this.bases = fields.numbers(rows, 4);
      const slots = fields.u32();
      this.next = fields.numbers(slots);
      this.check = fields.numbers(slots);
    }

    /** The entry of a row and a column, or -1 if there is none. */
    entry(row, column) {
      const slot = this.bases[row] + column;
      return slot < this.check.length && this.check[slot] === row ? this.next[slot] : -1;
    }

    /** Whether all is in range: bases, the rows of used slots, free slots, and entries by a function. */
    isInRange(none, columns, isEntry) {
      const { bases, next, check } = this;
      if (bases.some((base) => base > check.length)) return false;
      return check.every((row, slot) => {
        if (row === none) return next[slot] === 0;
        const column = row < bases.length ? slot - bases[row] : -1;
        return column >= 0 && column < columns && isEntry(next[slot], column);
      });
    }
  }

  /** What a table file holds. */
  class Tables {
    /** Takes the bytes of a table file. Throws TableFault if they aren't valid. */
    constructor(file) {
      const fields = new Fields(file);
      if ([..."LYTB"].some((sign, at) => at < file.length && file[at] !== sign.charCodeAt(0))) throw new TableFault(80);
      fields.take(4);
      this.version = fields.u16();
      if (this.version !== 1 && this.version !== 2) throw new TableFault(81);
      fields.width = 2 * this.version;
      const bits = 16 * this.version;
      Object.assign(this, { none: 2 ** bits - 1, shift: 2 ** (bits - 1), reduce: 2 ** (bits - 2) });
      this.readScanner(fields);
      this.rules = fields.list(() => readRule(fields));
      this.defaults = fields.numbers(fields.num());
      this.actions = new Comb(fields, this.defaults.length);
      this.gotos = new Comb(fields, this.defaults.length);
      if (fields.at !== file.length) throw new TableFault(83);
      const section = sectionOutOfRange(this);
      if (section) throw new TableFault(84, section);
      if (isEndless(this)) throw new TableFault(85);
    }

    readScanner(fields) {
      const terminals = fields.num();
      this.nonterminals = fields.num();
      this.names = [];
      for (let left = terminals; left > 0; left -= 1) this.names.push(fields.text());
      this.literals = fields.numbers(256);
      this.scanRules = fields.list(() => ({
        returns: fields.u8(), terminal: fields.num(), condition: fields.num(), cut: fields.u8(), length: fields.num(),
      }));
      this.conditions = fields.list(() => [fields.num(), fields.num()]);
      this.classCount = fields.num();
      this.classes = fields.numbers(256, 1);
      this.accepted = fields.numbers(fields.num());
      this.scanRows = new Comb(fields, this.accepted.length);
    }

    /** The entry for a state and a terminal: 0 error, 1 accept, or a shift or a reduction. */
    action(state, terminal) {
      const entry = this.actions.entry(state, terminal);
      if (entry >= 0) return entry;
      return this.defaults[state] ? this.reduce + this.defaults[state] : 0;
    }
  }

  function readRule(fields) {
    const rule = { left: fields.num(), length: fields.u8(), kind: fields.u8(), name: fields.text() };
    return { ...rule, places: Array.from(fields.numbers(fields.u8(), 1)) };
  }

  /** The first section with a number that is out of its range, or 0. */
  function sectionOutOfRange(tables) {
    const limits = tables.version === 1 ? [4095, 8191, 16383] : [16383, 131071, 262143];
    const [symbols, rules, states] = limits;
    const { none, names, conditions, accepted, defaults } = tables;
    const isName = (name) => name.length >= 1 && name.length <= 255;
    const isState = (state) => state < defaults.length;
    const isIn = [
      [2, () => names.length >= 2 && tables.nonterminals >= 1 && names.length + tables.nonterminals + 1 <= symbols &&
        names.every(isName) && names[0] === "$end" && names[1] === "$undef"],
      [3, () => tables.literals.every((terminal) => terminal >= 1 && terminal < names.length)],
      [4, () => tables.scanRules.length <= rules && tables.scanRules.every((rule) => isScanRule(tables, rule))],
      [5, () => conditions.length >= 1 && conditions.length <= 255 &&
        conditions.every((pair) => pair.every((state) => state === none || state < accepted.length))],
      [6, () => tables.classCount >= 1 && tables.classCount <= 256 &&
        tables.classes.every((class_) => class_ < tables.classCount)],
      [7, () => accepted.length <= states && accepted.every((rule) => rule <= tables.scanRules.length)],
      [8, () => tables.scanRows.isInRange(none, tables.classCount, (state) => state < accepted.length)],
      [9, () => tables.rules.length >= 1 && tables.rules.length <= rules &&
        tables.rules.every((rule) => rule.left < tables.nonterminals && isTree(rule, isName))],
      [10, () => defaults.length >= 1 && defaults.length <= states &&
        defaults.every((rule) => rule <= tables.rules.length)],
      [11, () => tables.actions.isInRange(none, names.length, (entry, column) => isAction(tables, entry, column))],
      [12, () => tables.gotos.isInRange(none, tables.nonterminals, isState)],
    ];
    const wrong = isIn.find(([, holds]) => !holds());
    return wrong ? wrong[0] : 0;
  }

  function isScanRule(tables, { returns, terminal, condition, cut, length }) {
    const isTerminal = returns === 1 ? terminal >= 1 && terminal < tables.names.length : terminal === 0;
    const isLength = [length === 0, length >= 1, true][cut];
    const isCondition = condition === tables.none || condition < tables.conditions.length;
    return returns <= 2 && cut <= 2 && isTerminal && isLength && isCondition;
  }

  /** Whether what a rule builds is in range. */
  function isTree({ length, kind, name, places }, isName) {
    if (places.some((place) => place < 1 || place > length) || new Set(places).size !== places.length) return false;
    if (kind === 0) return length === 0 && places.length === 0 && name === "";
    return kind === 1 ? places.length === 1 && name === "" : kind === 2 && isName(name);
  }

  function isAction(tables, entry, column) {
    if (entry >= tables.shift) return column !== 0 && entry - tables.shift < tables.defaults.length;
    if (entry >= tables.reduce) return entry > tables.reduce && entry - tables.reduce <= tables.rules.length;
    return entry === 0 || (entry === 1 && column === 0);
  }

  // ---- The parser

  /** Whether the tables may reduce without end. */
  function isEndless(tables) {
    for (let below = 0; below < tables.defaults.length; below += 1) {
      for (const top of targets(tables, below)) {
        for (let terminal = 0; terminal < tables.names.length; terminal += 1) {
          if (run(tables, [below, top], terminal, MOST_REDUCTIONS) === "never") return true;
        }
      }
    }
    return false;
  }

  /** The states that an action or a goto of a state leads to. */
  function targets(tables, state) {
    const found = new Set();
    for (let terminal = 0; terminal < tables.names.length; terminal += 1) {
      const entry = tables.actions.entry(state, terminal);
      if (entry >= tables.shift) found.add(entry - tables.shift);
    }
    for (let left = 0; left < tables.nonterminals; left += 1) {
      const entry = tables.gotos.entry(state, left);
      if (entry >= 0) found.add(entry);
    }
    return found;
  }

  /**
   * Runs the tables on a terminal from a stack of states, which is changed. The lowest state is never popped. Returns
   * how the run ends: "shift", "accept", "error", "faulty", or "never" after more reductions than `most`.
   */
  function run(tables, states, terminal, most = Infinity) {
    for (let reductions = 0; ; reductions += 1) {
      const action = tables.action(states[states.length - 1], terminal);
      if (action >= tables.shift) return "shift";
      if (action === 0) return "error";
      if (action === 1) return states.length > 1 ? "accept" : "faulty";
      const rule = tables.rules[action - tables.reduce - 1];
      if (rule.length >= states.length) return "faulty";
      states.length -= rule.length;
      const goto = tables.gotos.entry(states[states.length - 1], rule.left);
      if (goto < 0) return "faulty";
      if (reductions === most) return "never";
      states.push(goto);
    }
  }

  /** The names of the terminals that would be shifted, or accepted with, from a stack of states. */
  function expectedNames(tables, states) {
    return tables.names.filter((_, terminal) => ["shift", "accept"].includes(run(tables, states.slice(), terminal)));
  }

  /** The tokens of a text, as [terminal, start, end]; if no rule matches at a byte, the last one has terminal null. */
  function* tokens(tables, text) {
    for (let at = 0, condition = 0, atLine = 1; at < text.length; atLine = text[at - 1] === 10 ? 1 : 0) {
      const [accepted, length] = longestMatch(tables, text, at, tables.conditions[condition][atLine]);
      if (!accepted) {
        yield [null, at, at];
        return;
      }
      const rule = tables.scanRules[accepted - 1];
      const taken = [length, rule.length, length - rule.length][rule.cut];
      if (taken <= 0 || taken > length) throw new TableFault(90);
      if (rule.returns) yield [rule.returns === 1 ? rule.terminal : tables.literals[text[at]], at, at + taken];
      if (rule.condition !== tables.none) condition = rule.condition;
      at += taken;
    }
  }

  /** The rule, counted from 1, and the length of the longest match at a byte; [0, 0] if there is none. */
  function longestMatch(tables, text, at, start) {
    let best = [0, 0];
    let state = start === tables.none ? -1 : start;
    for (let end = at; state >= 0 && end < text.length; ) {
      state = tables.scanRows.entry(state, tables.classes[text[end]]);
      end += 1;
      if (state >= 0 && tables.accepted[state]) best = [tables.accepted[state], end - at];
    }
    return best;
  }

  /**
   * The stack of a parser, and the parts of the derivation on it. A part is a token, { terminal, start, end }, or a
   * rule with the parts of its body, { rule, body, start, end }; a part without tokens has no start and no end.
   */
  class Parser {
    constructor(tables) {
      Object.assign(this, { tables, states: [0], parts: [], number: 0 });
    }

    /** Reads a token, or at the end accepts. Throws SyntaxFault if it is unexpected. */
    feed(terminal, start, end) {
      const { tables, states, parts } = this;
      this.number += 1;
      // The stack before the token is its first `kept` states and then those that were popped, the last of them first.
      let kept = states.length;
      const popped = [];
      for (;;) {
        const action = tables.action(states[states.length - 1], terminal);
        if (action >= tables.shift) {
          states.push(action - tables.shift);
          parts.push({ terminal, start, end });
          return;
        }
        if (action === 1 && parts.length) return;
        if (action === 1) throw new TableFault(90);
        if (action === 0) {
          const before = states.slice(0, kept).concat(popped.reverse());
          throw new SyntaxFault(tables, this.number, terminal, start, end, expectedNames(tables, before));
        }
        const rule = tables.rules[action - tables.reduce - 1];
        for (; kept > Math.max(0, states.length - rule.length); kept -= 1) popped.push(states[kept - 1]);
        this.reduceBy(rule);
      }
    }

    reduceBy(rule) {
      const { tables, states, parts } = this;
      if (rule.length > parts.length) throw new TableFault(90);
      const body = parts.splice(parts.length - rule.length);
      states.length -= rule.length;
      const goto = tables.gotos.entry(states[states.length - 1], rule.left);
      if (goto < 0) throw new TableFault(90);
      states.push(goto);
      const read = body.filter((part) => part.start !== undefined);
      const span = read.length ? { start: read[0].start, end: read[read.length - 1].end } : {};
      parts.push({ rule, body, ...span });
    }
  }

  // ---- Trees

  /** A token: its terminal's name, its bytes and its span. */
  class Token {
    constructor(name, text, start, end) {
      Object.assign(this, { name, text, start, end });
    }
  }

  /** A node: its constructor, its children and its span. */
  class Node {
    constructor(name, children, start, end) {
      Object.assign(this, { name, children, start, end });
    }
  }

  /** The tree of a text. Throws SyntaxFault if it has none, and TableFault (90) if the tables are faulty on it. */
  function parse(tables, text) {
    const parser = new Parser(tables);
    for (const [terminal, start, end] of tokens(tables, text)) {
      if (terminal === null) throw new SyntaxFault(tables, 0, null, start, end);
      parser.feed(terminal, start, end);
    }
    parser.feed(0, text.length, text.length);
    const { parts } = parser;
    const last = parts.slice(0, -1).reduce((before, part) => part.end === undefined ? before : part.end, 0);
    return treeOf(tables, text, parts[parts.length - 1], last);
  }

  /** The tree of a part of a derivation, without recursion. `last` is where the last token before it ends. */
  function treeOf(tables, text, part, last) {
    const whole = [];
    const waiting = [[part, last, whole, 0]];
    while (waiting.length) {
      const [around, before, siblings, place] = waiting.pop();
      const [inner, from] = passedOn(around, before);
      if (inner === null) {
        siblings[place] = null;
      } else if (inner.rule === undefined) {
        const { terminal, start, end } = inner;
        siblings[place] = new Token(tables.names[terminal], text.subarray(start, end), start, end);
      } else {
        const { start = from, end = from } = inner;
        const node = new Node(inner.rule.name, new Array(inner.rule.places.length), start, end);
        siblings[place] = node;
        inner.rule.places.forEach((symbol, at) => waiting.push([...childAt(inner, symbol, from), node.children, at]));
      }
    }
    return whole[0];
  }

  /** The part that the actions pass on in place of one, or null for nothing; and where it begins at the earliest. */
  function passedOn(part, last) {
    while (part.rule !== undefined && part.rule.kind !== 2) {
      if (part.rule.kind === 0) return [null, last];
      [part, last] = childAt(part, part.rule.places[0], last);
    }
    return [part, last];
  }

  /**
   * The part of a symbol of a body, counted from 1, and where it begins at the earliest: where the last token before it
   * ends, or where the body begins if that is later.
   */
  function childAt(part, symbol, last) {
    let from = part.start === undefined ? last : part.start;
    for (const before of part.body.slice(0, symbol - 1)) from = before.end === undefined ? from : before.end;
    return [part.body[symbol - 1], from];
  }

  // ---- Output

  /** Bytes as characters: each is the character of its number. */
  function latin(bytes, start = 0, end = bytes.length) {
    let said = "";
    for (let at = start; at < end; at += 1) said += String.fromCharCode(bytes[at]);
    return said;
  }

  /** Characters as bytes: the inverse. */
  function latinBytes(said) {
    const bytes = new Uint8Array(said.length);
    for (let at = 0; at < said.length; at += 1) bytes[at] = said.charCodeAt(at);
    return bytes;
  }

  /** Bytes in quotes, as lytab prints them. */
  function quoted(bytes, quote = '"') {
    const meant = { 9: "\\t", 10: "\\n", 92: "\\\\", [quote.charCodeAt(0)]: `\\${quote}` };
    const escaped = (byte) => `\\x${byte.toString(16).padStart(2, "0")}`;
    const sign = (byte) => meant[byte] || (byte >= 32 && byte <= 126 ? String.fromCharCode(byte) : escaped(byte));
    return quote + Array.from(bytes, sign).join("") + quote;
  }

  /** Writes a tree, without recursion: by a form's `nothing`, `token(token)`, `opens(node)` and `closes`. */
  function written(tree, form) {
    const said = [];
    const waiting = [tree];
    while (waiting.length) {
      const part = waiting.pop();
      if (part === null) said.push(form.nothing);
      else if (typeof part === "string") said.push(part);
      else if (part instanceof Token) said.push(form.token(part));
      else {
        said.push(form.opens(part));
        waiting.push(form.closes);
        part.children.slice().reverse().forEach((child, at) => waiting.push(...(at ? [",", child] : [child])));
      }
    }
    return said.join("");
  }

  const PLAIN = {
    nothing: "()",
    closes: ")",
    token: ({ name, text }) => name + quoted(text),
    opens: ({ name }) => `${name}(`,
    fault: ({ number, terminal, name, start, end, expected }, text) => {
      if (number === 0) return `no rule matches at byte ${start}`;
      const place = `token ${number}, byte ${start}`;
      const what = terminal === 0 ? `end, ${place}` : `${place}: ${name}${quoted(text.subarray(start, end))}`;
      return `syntax error at ${what}\n${["expected:", ...expected].join(" ")}`;
    },
  };

  /** The form of `--json`, or with places that of `--places`. */
  function jsonForm(text, hasPlaces) {
    const locate = locator(text);
    const places = ({ start, end }) => (hasPlaces ? { start: locate(start), end: locate(end) } : {});
    return {
      nothing: "null",
      closes: "]}",
      token: (token) => JSON.stringify({ token: token.name, ...places(token), ...content(token.text) }),
      opens: (node) => JSON.stringify({ node: node.name, ...places(node), children: [] }).slice(0, -2),
      fault: (fault) => {
        const { number, terminal, name, start, end, expected } = fault;
        if (number === 0) return JSON.stringify({ error: "unmatched", byte: start, ...places(fault) });
        const said = { error: "refused", number, byte: start, ...places(fault), token: name };
        return JSON.stringify({ ...said, ...(terminal ? content(text.subarray(start, end)) : {}), expected });
      },
    };
  }

  const UTF8 = new TextDecoder("utf-8", { fatal: true, ignoreBOM: true });

  /** The bytes of a token for JSON: as text if they are UTF-8. */
  function content(bytes) {
    try {
      return { text: UTF8.decode(bytes) };
    } catch (error) {
      return { bytes: Array.from(bytes) };
    }
  }

  /** A function that locates bytes of a text: [offset, line, column]. Lines and columns count from 1. */
  function locator(text) {
    const lines = [0];
    text.forEach((byte, at) => byte === 10 && lines.push(at + 1));
    return (offset) => {
      let [line, end] = [0, lines.length];
      while (end - line > 1) {
        const middle = (line + end) >> 1;
        if (lines[middle] <= offset) line = middle;
        else end = middle;
      }
      return [offset, line + 1, offset - lines[line] + 1];
    };
  }

  /** The output of `lytab run` for a text, as { output, isTree }; `output` is a Uint8Array. Throws TableFault (90). */
  function answer(tables, text, { json = false, places = false } = {}) {
    const form = json || places ? jsonForm(text, places) : PLAIN;
    const encoded = (said) => (form === PLAIN ? latinBytes(said) : new TextEncoder().encode(said));
    try {
      return { output: encoded(`${written(parse(tables, text), form)}\n`), isTree: true };
    } catch (fault) {
      if (!(fault instanceof SyntaxFault)) throw fault;
      return { output: encoded(`${form.fault(fault, text)}\n`), isTree: false };
    }
  }

  return { Tables, Node, Token, TableFault, SyntaxFault, parse, answer, locator, quoted };
})();

if (typeof module !== "undefined" && module.exports) {
  module.exports = lydrive;
  if (require.main === module) process.exitCode = program(process.argv.slice(2));
}

/** The program of the first lines. Returns its exit status. */
function program(words) {
  const fs = require("fs");
  const paths = words.filter((word) => !word.startsWith("--"));
  if (paths.length < 1 || paths.length > 2) {
    process.stderr.write("usage: lydrive.js TABLES [TEXT] [--json] [--places]\n");
    return 4;
  }
  try {
    const tables = new lydrive.Tables(fs.readFileSync(paths[0]));
    const how = { json: words.includes("--json"), places: words.includes("--places") };
    const { output, isTree } = lydrive.answer(tables, fs.readFileSync(paths.length > 1 ? paths[1] : 0), how);
    process.stdout.write(output);
    return isTree ? 0 : 1;
  } catch (fault) {
    process.stderr.write(`lydrive: ${fault.message}\n`);
    return fault instanceof lydrive.TableFault ? 2 : 3;
  }
}
