'use strict';
// Another name for a symbol, by the proved renamer.

const { checkName } = require('../../rename/index.js');
const { RenameRefusal } = require('../../rename/refusal.js');
const { symbolAt } = require('../../rename/symbol-at.js');
const { renameSymbol } = require('../../rename/symbol.js');

const WARNING = 2;

// The symbol whose name holds a position or ends there, and that name; else a refusal that says what stands there.
async function symbolOf(document, position) {
  const names = await document.names();
  const analysed = await document.analysed();
  const byte = document.places.byteOf(position);
  const name = names.at(byte);
  if (name !== null && name.symbol !== null) {
    return { analysed, name, symbol: name.symbol };
  }
  symbolAt(analysed, analysed.positions.placeOf(name === null ? byte : name.start));
  throw new RenameRefusal('no name of a variable stands here', { start: byte, end: byte });
}

// The document's edits, with its version where the client takes that.
function workspaceEdit({ uri, version, places }, edits, { takesVersionedEdits }) {
  const changes = edits.map(({ start, end, text }) => ({ range: places.rangeOf({ start, end }), newText: text }));
  return takesVersionedEdits ? { documentChanges: [{ textDocument: { uri, version }, edits: changes }] } : { changes: { [uri]: changes } };
}

async function rename(document, { position, newName }, { client, notice }) {
  checkName(newName);
  const { analysed, symbol } = await symbolOf(document, position);
  if (symbol.name === newName) {
    return workspaceEdit(document, [], client);
  }
  const { edits, warnings } = document.timed('renaming', () => renameSymbol(analysed, symbol, newName));
  warnings.forEach((message) => notice({ type: WARNING, message }));
  return workspaceEdit(document, edits, client);
}

// A name that nothing in the text has.
function freshName({ report }, { name }) {
  const taken = new Set([...report.symbols, ...report.references].map((entry) => entry.name));
  let fresh = `${name}_`;
  while (taken.has(fresh)) {
    fresh += '_';
  }
  return fresh;
}

// What can get no name at all is refused before one is asked for: a name that is free everywhere is tried.
async function prepareRename(document, { position }) {
  const { analysed, name, symbol } = await symbolOf(document, position);
  document.once(`renamed ${symbol.id}`, () => document.timed('trial', () => renameSymbol(analysed, symbol, freshName(analysed, symbol))));
  return { range: document.places.rangeOf(name), placeholder: symbol.name };
}

module.exports = { prepareRename, rename, workspaceEdit };
