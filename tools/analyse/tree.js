'use strict';
// The tree of a source: its text for the programs, and its rows.

const path = require('path');
const { Positions } = require('./positions.js');
const { Refusal } = require('./refusal.js');
const { Rows } = require('./rows.js');

// What a refusal that names no bound means.
const BOUNDS = {
  'too deep': 'too deep: its tree has more than 1,000 levels',
  'too large': 'too large: its tree has more than 67,108,864 bytes',
};

const CONVERTER = path.join(__dirname, '..', 'source-to-tree', 'convert.js');

// What a fault of the converter means for the file. A parser's place counts units of the string.
function refusalOf(error, text) {
  if (error instanceof RangeError && /call stack/i.test(error.message)) {
    return new Refusal(BOUNDS['too deep']);
  }
  if (error.name !== 'Refusal') {
    return new Refusal(`its tree can't be made: ${error.message}`);
  }
  if (typeof error.offset !== 'number') {
    const place = typeof error.line === 'number' ? { line: error.line, column: error.column } : {};
    return new Refusal(BOUNDS[error.message] || error.message, place);
  }
  const index = error.offset + (text.startsWith('\ufeff') ? 1 : 0);
  const start = Buffer.byteLength(text.slice(0, index));
  return new Refusal(error.message, { ...new Positions(text).placeAt(index), start });
}

// A row of the tree, by the number of its node.
function rowOf(fields) {
  const [depth, role, kind, start, end, text, marks] = fields;
  return { depth, role, kind, span: { start, end }, text, marks };
}

// What stands before the rows, which has no texts.
function headOf(json) {
  const end = json.indexOf(',"rows":[');
  return JSON.parse(`${json.toString('latin1', 0, end)}}`);
}

// A tree's text as the converter writes it, and what stands in it once that is asked for.
class Tree {
  // What the converter tells besides, where it does: `lang` and `goal`, and the places of the rows or what gives them.
  constructor(json, { lang, goal, places, placesOf = () => undefined } = {}) {
    this.json = json;
    this.told = { lang, goal };
    this.placesOf = places === undefined ? placesOf : () => places;
    this.known = {};
    this.read = new Map(); // the rows that were read, by their nodes
  }

  kept(name, make) {
    this.known[name] ??= make();
    return this.known[name];
  }

  get value() {
    return this.kept('value', () => JSON.parse(this.json.toString('utf8')));
  }

  // `comments` (spans and kinds), `goal` and `lang`, without a reading of the whole tree.
  get head() {
    return this.kept('head', () => headOf(this.json));
  }

  get lang() {
    return this.told.lang ?? this.head.lang;
  }

  get goal() {
    return this.told.goal ?? this.head.goal;
  }

  // Whether it is TypeScript's.
  get isTyped() {
    return this.lang !== 'js' && this.lang !== 'jsx';
  }

  // The rows one by one, without a reading of the whole tree.
  get rows() {
    return this.kept('rows', () => new Rows(this.json, this.placesOf()));
  }

  // A row, which isn't to be changed: the next one who asks gets it, too.
  row(node) {
    if (!this.read.has(node)) {
      this.read.set(node, rowOf(this.known.value === undefined ? this.rows.at(node) : this.value.rows[node]));
    }
    return this.read.get(node);
  }

  // The number of a node's parent, null for the root.
  parent(node) {
    return this.rows.parent(node);
  }
}

// The tree that a parser makes of a text. Options: `file`, whose name tells language and goal; `parser` and `goal` in place
// of what it tells; `clock`, which gets the milliseconds of parser and conversion; `changing`, the trees of a text that changes.
function convertText(text, { file, parser, goal, clock = {}, changing = require(CONVERTER) }) {
  try {
    const options = { filename: file, clock, ...(parser && { parser }), ...(goal && { goal }) };
    const { json, ...told } = changing.treeOf(text, options);
    return new Tree(json, told);
  } catch (error) {
    throw refusalOf(error, text);
  }
}

// A tree in any form of JSON, which is read as a whole.
class GivenTree extends Tree {
  get head() {
    return this.value;
  }

  // In the converter's form.
  get rows() {
    return this.kept('rows', () => new Rows(Buffer.from(JSON.stringify({ format: 1, rows: this.value.rows }))));
  }

  row(node) {
    return rowOf(this.value.rows[node]);
  }
}

// A tree that the text is already.
function readTree(text) {
  return new GivenTree(Buffer.from(text, 'utf8'));
}

module.exports = { BOUNDS, convertText, readTree };
