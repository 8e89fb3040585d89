'use strict';
// What can be changed at a place: a name that nothing uses gets `_` before it, a property in short is written out.

const { KIND, MARKS, START, END, TEXT } = require('../../edits/rows.js');
const { RenameRefusal } = require('../../rename/refusal.js');
const { renameSymbol } = require('../../rename/symbol.js');
const { ResponseFault } = require('../faults.js');
const { settingsOfFile } = require('../settings.js');
const { findingsIn } = require('./diagnostics.js');
const { workspaceEdit } = require('./rename.js');

// Nodes whose names may begin with `_` to say that they are unused.
const UNDERSCORED = new Set(['VariableDeclarator', 'FormalParameter', 'FormalParameterRest', 'CatchParameter']);

// Where the client doesn't ask for an edit later, as many are made at once.
const MOST_RENAMED = 4;

const meets = (span, { start, end }) => span !== null && span.start <= end && start <= span.end;

const takes = (params, kind) => !Array.isArray(params.context?.only) || params.context.only.some((wanted) => kind === wanted || kind.startsWith(`${wanted}.`));

// The unused symbols in a span that a name with `_` would leave alone.
async function unusedIn(document, span) {
  const { ignore } = settingsOfFile(document.name).rules['no-unused'];
  if (ignore === '') {
    return [];
  }
  const pattern = new RegExp(ignore, 'u');
  const names = await document.names();
  const { rows } = await document.analysed();
  const found = (await findingsIn(document)).filter(({ rule, span: place }) => rule === 'no-unused' && meets(place, span));
  const symbols = found.map(({ span: place }) => names.at(place.start)?.symbol).filter((symbol) => symbol);
  return symbols.filter(({ name, node }) => pattern.test(`_${name}`) && UNDERSCORED.has(rows[node][KIND]));
}

async function editOf(document, symbol, client) {
  const { edits } = renameSymbol(await document.analysed(), symbol, `_${symbol.name}`);
  return workspaceEdit(document, edits, client);
}

async function underscoreAction(document, symbol, client) {
  const action = { title: `Rename '${symbol.name}' to '_${symbol.name}': nothing uses it`, kind: 'quickfix' };
  if (client.resolvesActions) {
    return [{ ...action, data: { uri: document.uri, version: document.version, symbol: symbol.id } }];
  }
  try {
    return [{ ...action, edit: await editOf(document, symbol, client) }];
  } catch (error) {
    if (!(error instanceof RenameRefusal)) {
      throw error;
    }
    return client.takesDisabled ? [{ ...action, disabled: { reason: error.message } }] : [];
  }
}

const SHORT = new Set(['ObjectProperty', 'BindingProperty', 'AssignmentTargetPropertyIdentifier']);

// `{ __proto__ }` is a property, and `{ __proto__: __proto__ }` sets a prototype.
function isShort(row, { [TEXT]: name }) {
  return SHORT.has(row[KIND]) && (row[MARKS].includes('shorthand') || row[KIND] === 'AssignmentTargetPropertyIdentifier') && name !== '__proto__';
}

// The properties in short whose names meet a span.
function shortIn({ rows }, span) {
  const found = [];
  rows.forEach((row, node) => {
    const name = rows[node + 1];
    if (row[START] <= span.end && span.start <= row[END] && name !== undefined && isShort(row, name) && meets({ start: name[START], end: name[END] }, span)) {
      found.push(name);
    }
  });
  return found;
}

function writeOutAction(document, name, client) {
  const place = { start: name[START], end: name[START] };
  const key = document.places.textOf({ start: name[START], end: name[END] });
  return { title: `Write '${key}' out as '${key}: ${key}'`, kind: 'refactor.rewrite', edit: workspaceEdit(document, [{ ...place, text: `${key}: ` }], client) };
}

async function codeAction(document, params, { client }) {
  const span = { start: document.places.byteOf(params.range.start), end: document.places.byteOf(params.range.end) };
  const unused = takes(params, 'quickfix') ? await unusedIn(document, span) : [];
  const few = client.resolvesActions ? unused : unused.slice(0, MOST_RENAMED);
  const renames = [];
  for (const symbol of few) {
    renames.push(...await underscoreAction(document, symbol, client));
  }
  const short = takes(params, 'refactor.rewrite') ? shortIn(await document.analysed(), span) : [];
  return [...renames, ...short.map((name) => writeOutAction(document, name, client))];
}

// The edit of an action that was offered without.
async function resolveAction(document, action, { client }) {
  const { version, symbol } = action.data;
  const found = (await document.analysed()).report.symbols[symbol];
  if (version !== document.version || found === undefined) {
    throw new ResponseFault('contentModified', 'the document has changed since the action was offered');
  }
  return { ...action, edit: await editOf(document, found, client) };
}

module.exports = { codeAction, resolveAction };
