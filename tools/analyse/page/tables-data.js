'use strict';
// The tree and tables of a text as a page carries them for renamings: rows as numbers, with their words in a list; and back again.

const PARTS = 7; // of a row

// Numbers for values in the order in which they come.
class Numbered {
  constructor() {
    this.numbers = new Map();
    this.values = [];
  }

  of(value, key = value) {
    if (!this.numbers.has(key)) {
      this.numbers.set(key, this.values.push(value) - 1);
    }
    return this.numbers.get(key);
  }
}

function packedRows(rows) {
  const words = new Numbered();
  const marks = new Numbered();
  const numbers = rows.flatMap(([depth, role, kind, start, end, text, list]) => (
    [depth, words.of(role), words.of(kind), start, end - start, words.of(text), marks.of(list, list.join())]));
  return { numbers, words: words.values, marks: marks.values };
}

function unpackedRows({ numbers, words, marks }) {
  const rows = [];
  for (let at = 0; at < numbers.length; at += PARTS) {
    const [depth, role, kind, start, length, text, list] = numbers.slice(at, at + PARTS);
    rows.push([depth, words[role], words[kind], start, start + length, words[text], marks[list]]);
  }
  return rows;
}

const packedScope = ({ parent, node, flags, bindings }) => [parent, node, flags, bindings.flatMap(({ name, symbol }) => [name, symbol])];

function unpackedScope([parent, node, flags, list], id) {
  const bindings = [];
  for (let at = 0; at < list.length; at += 2) {
    bindings.push({ name: list[at], symbol: list[at + 1] });
  }
  return { id, parent, node, flags, bindings };
}

function packedSymbol({ name, scope, node, span, flags, redeclarations, references }) {
  return [name, scope, node, span.start, span.end, flags, redeclarations.flatMap((entry) => [entry.node, entry.span.start, entry.span.end]), references];
}

function unpackedSymbol([name, scope, node, start, end, flags, list, references], id) {
  const redeclarations = [];
  for (let at = 0; at < list.length; at += 3) {
    redeclarations.push({ node: list[at], span: { start: list[at + 1], end: list[at + 2] } });
  }
  return { id, name, scope, node, span: { start, end }, flags, redeclarations, references };
}

const packedReference = ({ name, node, scope, flags, symbol }) => [name, node, scope, flags, symbol];
const unpackedReference = ([name, node, scope, flags, symbol], id) => ({ id, name, node, scope, flags, symbol });

function packed({ filename, source, tree, report }) {
  return {
    filename,
    source,
    goal: tree.goal,
    lang: tree.lang,
    rows: packedRows(tree.rows),
    scopes: report.scopes.map(packedScope),
    symbols: report.symbols.map(packedSymbol),
    references: report.references.map(packedReference),
    free: report.free.map(({ name }) => name),
  };
}

// What `packed` was made of, but for what no renaming asks for.
function unpacked({ filename, source, goal, lang, rows, scopes, symbols, references, free }) {
  return {
    source,
    options: { filename },
    tree: { goal, lang, rows: unpackedRows(rows) },
    report: {
      scopes: scopes.map(unpackedScope),
      symbols: symbols.map(unpackedSymbol),
      references: references.map(unpackedReference),
      free: free.map((name) => ({ name })),
    },
  };
}

module.exports = { packed, unpacked };
