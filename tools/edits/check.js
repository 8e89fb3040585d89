'use strict';
// Whether a text has just the tree that it should have, spans aside.

const { treeOf } = require('../source-to-tree/convert.js');
const { backwards } = require('./backwards.js');
const { EditFault } = require('./fault.js');
const { DEPTH, END, KIND, MARKS, ROLE, START, TEXT } = require('./rows.js');

const PARTS = [DEPTH, ROLE, KIND, TEXT];

function isSameRow(row, other) {
  return other !== undefined
    && PARTS.every((part) => row[part] === other[part])
    && row[MARKS].length === other[MARKS].length
    && row[MARKS].every((mark, at) => mark === other[MARKS][at]);
}

// The first row that differs, or -1.
function firstDifference(rows, others) {
  const node = rows.findIndex((row, at) => !isSameRow(row, others[at]));
  return node < 0 && others.length > rows.length ? rows.length - 1 : node;
}

function byteOf(source, index) {
  return Buffer.byteLength(source.slice(0, index), 'utf8');
}

// What the parser says of the changed text, at the place in the text before.
function asFault(error, source, changes) {
  if (error.name !== 'Refusal') {
    return error;
  }
  const mark = source.startsWith('\ufeff') ? 1 : 0;
  if (typeof error.offset !== 'number') {
    return new EditFault(`the changed text can't be read: ${error.message}`);
  }
  const before = backwards(changes.map(({ start, end, text }) => ({ start, end, size: text.length })));
  const byte = byteOf(source, before(error.offset + mark));
  return new EditFault(`the changed text can't be read: ${error.message}`, { start: byte, end: byte });
}

// The tree of the changed text, as JSON and read. It must be `wanted`, of which `before` has the places in the text before.
function checkedTree({ source, text, changes, before, wanted, options }) {
  let json;
  try {
    json = Buffer.from(treeOf(text, options).json);
  } catch (error) {
    throw asFault(error, source, changes);
  }
  const tree = JSON.parse(json.toString('utf8'));
  const node = firstDifference(wanted.rows, tree.rows);
  if (node >= 0) {
    const row = before.rows[node];
    const found = tree.rows[node];
    const kind = found === undefined || found[KIND] === row[KIND] ? '' : `: as ${found[KIND]}, no ${row[KIND]}`;
    throw new EditFault(`the changed text would be read otherwise here${kind}`, { start: row[START], end: row[END] });
  }
  if (tree.goal !== before.goal || tree.comments.length !== before.comments.length) {
    throw new EditFault('the changed text would be of another kind');
  }
  return { json, tree };
}

module.exports = { checkedTree, firstDifference };
