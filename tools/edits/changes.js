'use strict';
// From a tree and the same tree with other names to the changes of its text.

const { nameEnd } = require('../source-to-tree/trivia.js');
const { EditFault } = require('./fault.js');
const { DEPTH, END, KIND, MARKS, ROLE, START, TEXT } = require('./rows.js');

// Nodes in which one name of the text may stand for two parts: the roles of both, and how they are written out. In short, a property
// keeps its key; of the names of a specifier either may change.
const property = { kept: 'key', name: 'value', written: (kept, name) => `${kept}: ${name}`, joins: false };
const PAIRS = {
  ObjectProperty: property,
  BindingProperty: property,
  AssignmentTargetPropertyProperty: { ...property, name: 'binding' },
  ImportSpecifier: { kept: 'imported', name: 'local', written: (kept, name) => `${kept} as ${name}`, joins: true },
  ExportSpecifier: { kept: 'exported', name: 'local', written: (kept, name) => `${name} as ${kept}`, joins: true },
};

// What a part with a default stands in: `{ a = 1 }`.
const DEFAULTS = { AssignmentPattern: 'left', AssignmentTargetWithDefault: 'binding' };

const VARIABLES = new Set(['BindingIdentifier', 'IdentifierReference']);
const MODULE_NAMES = new Set(['imported', 'exported', 'local']);

// Whether the text of a row may change: a variable's name, or a name in a specifier.
const mayChange = (row) => VARIABLES.has(row[KIND]) || (row[KIND] === 'IdentifierName' && MODULE_NAMES.has(row[ROLE]));

// The node that may pair the name with another part, or -1.
function pairAround(rows, path, node) {
  const [depth, role] = rows[node];
  const above = path[depth - 1];
  const pair = DEFAULTS[rows[above][KIND]] === role ? path[depth - 2] : above;
  return Object.hasOwn(PAIRS, rows[pair][KIND]) ? pair : -1;
}

// The two parts that a pair begins with, by their roles: leaves, but for a value with a default.
function partsOf(rows, pair) {
  const { kept, name } = PAIRS[rows[pair][KIND]];
  const [first, second] = [pair + 1, pair + 2];
  if (rows[first] === undefined || rows[second] === undefined) {
    return null;
  }
  if (rows[first][ROLE] === kept) {
    return rows[second][ROLE] === name ? { kept: first, name: second } : null;
  }
  return rows[first][ROLE] === name && rows[second][ROLE] === kept ? { kept: second, name: first } : null;
}

// The pair in which one name of the text stands for this node and another one, or null.
function sharedPair(rows, path, node) {
  const pair = pairAround(rows, path, node);
  const parts = pair < 0 ? null : partsOf(rows, pair);
  if (parts === null || rows[parts.kept][START] !== rows[parts.name][START] || rows[node][START] !== rows[parts.kept][START]) {
    return null;
  }
  return { pair, kept: parts.kept, way: PAIRS[rows[pair][KIND]] };
}

const isShort = (row) => row[MARKS].includes('shorthand');

// What is written where one name stands for two parts, of which `node` is the one that isn't kept.
function sharedText({ rows, renamed, node, spelled }, { pair, kept, way }) {
  const isSame = [node, kept].every((part) => rows[part][TEXT] === renamed[part][TEXT]);
  if (isSame && !(isShort(rows[pair]) && !isShort(renamed[pair]))) {
    return null;
  }
  const isKept = rows[kept][TEXT] === renamed[kept][TEXT];
  const isJoined = way.joins && renamed[node][TEXT] === renamed[kept][TEXT];
  return isJoined ? renamed[node][TEXT] : way.written(isKept ? spelled : renamed[kept][TEXT], renamed[node][TEXT]);
}

// What is written in place of a name, or null where it stays as it is.
function newText({ rows, renamed, path, node, spelled }) {
  const shared = sharedPair(rows, path, node);
  if (shared === null) {
    return rows[node][TEXT] === renamed[node][TEXT] ? null : renamed[node][TEXT];
  }
  const other = shared.kept === node ? partsOf(rows, shared.pair).name : node;
  return sharedText({ rows, renamed, node: other, spelled }, shared);
}

const spanOf = (row) => ({ start: row[START], end: row[END] });

function checkTwins(rows, renamed) {
  const differs = (row, node) => [DEPTH, ROLE, KIND].some((part) => renamed[node] === undefined || row[part] !== renamed[node][part]);
  const node = rows.findIndex(differs);
  if (node >= 0 || rows.length !== renamed.length) {
    throw new EditFault('the two trees are of different programs', node < 0 ? null : spanOf(rows[node]));
  }
}

// In order of place. A place that two nodes share has one change, if they agree.
function inOrder(changes) {
  const sorted = changes.sort((a, b) => a.start - b.start);
  return sorted.filter((change, at) => {
    const before = sorted[at - 1];
    if (before === undefined || change.start >= before.end) {
      return true;
    }
    if (change.start === before.start && change.text === before.text) {
      return false;
    }
    throw new EditFault('two names stand in one place', change);
  });
}

// The changes of the text, each `{ start, end, text }` in units of the string, in order. `positions` are those of the text.
function changesOf(positions, rows, renamed) {
  checkTwins(rows, renamed);
  const source = positions.text;
  const changes = [];
  const path = [];
  rows.forEach((row, node) => {
    path[row[DEPTH]] = node;
    if (!mayChange(row)) {
      if (row[TEXT] !== renamed[node][TEXT]) {
        throw new EditFault(`the name of a ${row[KIND]} can't be changed`, spanOf(row));
      }
      return;
    }
    const start = positions.indexOf(row[START]);
    const end = nameEnd(source, start);
    const text = newText({ rows, renamed, path, node, spelled: source.slice(start, end) });
    if (text !== null) {
      changes.push({ start, end, text });
    }
  });
  return inOrder(changes);
}

module.exports = { changesOf };
