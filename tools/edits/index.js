'use strict';
// From the text of a source file, its tree and that tree with other names to the text that has these names. What comes out is
// parsed again and must have the very tree that was asked for, so that what is proved of that tree holds for the text.

const { load } = require('../source-to-tree/load.js');
const { Positions } = require('../analyse/positions.js');
const { backwards } = require('./backwards.js');
const { changesOf } = require('./changes.js');
const { checkedTree } = require('./check.js');
const { EditFault } = require('./fault.js');

function changedText(source, changes) {
  const MagicString = load('magic-string');
  const magic = new MagicString(source);
  for (const { start, end, text } of changes) {
    magic.overwrite(start, end, text, { storeName: true });
  }
  return magic;
}

// A change for other programs: bytes, line and column of the text before.
function editOf(positions, change, byte) {
  const old = positions.text.slice(change.start, change.end);
  const start = byte(change.start);
  return { start, end: start + Buffer.byteLength(old, 'utf8'), ...positions.placeAt(change.start), old, text: change.text };
}

// The bytes before places in the string that are asked for in order.
function byteCounter(source) {
  let index = 0;
  let bytes = 0;
  return (next) => {
    bytes += Buffer.byteLength(source.slice(index, next), 'utf8');
    index = next;
    return bytes;
  };
}

// `before` and `after` are trees as `treeOf` writes them, read. Options are those of `treeOf` by which `before` was made, and
//   positions  those of the source, where they are at hand
//   map        asks for a source map, with the file's name in `filename`
// Gives `text`; `edits`, each `{ start, end, line, column, old, text }` in bytes of the source; `tree` and `json`, of the text;
// `map`, or null; `placeBefore`, from a byte of the text to one of the source. Throws an EditFault.
function edited(source, before, after, options) {
  const { positions = new Positions(source), map = false, ...parsing } = options;
  const changes = changesOf(positions, before.rows, after.rows);
  const magic = changedText(source, changes);
  const text = magic.toString();
  const { json, tree } = checkedTree({ source, text, changes, before, wanted: after, options: parsing });
  const byte = byteCounter(source);
  const edits = changes.map((change) => editOf(positions, change, byte));
  return {
    text,
    edits,
    placeBefore: backwards(edits.map((edit) => ({ start: edit.start, end: edit.end, size: Buffer.byteLength(edit.text, 'utf8') }))),
    tree,
    json,
    map: map ? magic.generateMap({ source: parsing.filename, includeContent: true, hires: true }) : null,
  };
}

module.exports = { EditFault, edited };
