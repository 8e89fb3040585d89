'use strict';
// A renaming as a page tells it, which has the tables of a text, but neither the programs nor a parser: the rules that stand in
// modules of their own are the command's, what the proved renamer says is foreseen, and what only a parser tells is left to the
// command.

const { changesOf } = require('../edits/changes.js');
const { EditFault } = require('../edits/fault.js');
const { KIND, START, TEXT } = require('../edits/rows.js');
const { refuseReserved, refuseSeen, refuseTangled } = require('./by-itself.js');
const { refuseForeseen, renamedTables } = require('./foreseen.js');
const { unfit } = require('./identifier.js');
const { RenameRefusal } = require('./refusal.js');
const { warningsFor } = require('./seen.js');
const { withoutShortTargets } = require('./short-targets.js');
const { tangledByPlaces } = require('./tangled-places.js');

const words = (text) => new Set(text.split(' '));

// Words that are names, and mean something else at some places.
const OF_ALL = words('async await get let of set static yield accessor using');
const OF_TYPES = words('abstract any as asserts bigint boolean declare global implements infer interface intrinsic is keyof module '
  + 'namespace never number object out override package private protected public readonly require satisfies string symbol type '
  + 'undefined unique unknown');

const isTyped = ({ tree }) => tree.lang !== 'js' && tree.lang !== 'jsx';

function refuseDoubtful(analysis, symbol, name) {
  if (OF_ALL.has(name) || (isTyped(analysis) && OF_TYPES.has(name))) {
    throw new RenameRefusal(`\`${name}\` means something else at some places, which a parser has to tell: bolgwyr rename has one`, symbol.span);
  }
}

const ELEMENTS = new Set(['JSXOpeningElement', 'JSXClosingElement']);

// An element whose name begins with a small letter is none of a variable.
function refuseElement(analysis, symbol, name) {
  const { rows, parents } = analysis;
  const node = /^[a-z]/.test(name) ? analysis.occurrencesOf(symbol).find((at) => ELEMENTS.has(rows[parents[at]][KIND])) : undefined;
  if (node !== undefined) {
    throw new RenameRefusal(`the changed text would be read otherwise here: as JSXIdentifier, no ${rows[node][KIND]}`, analysis.spanOf(node));
  }
}

function refuseTangledAfter(analysis, symbol, name) {
  const tangled = tangledByPlaces(renamedTables(analysis, symbol, name)).get(name);
  if (tangled !== undefined) {
    throw new RenameRefusal(`\`${name}\` couldn't be followed: ${tangled.reason}`, tangled.span);
  }
}

const VARIABLES = new Set(['BindingIdentifier', 'IdentifierReference']);

// The changes of the text, each `{ start, end, text }` in units of the string.
function changesFor(analysis, symbol, name) {
  const starts = new Set(analysis.occurrencesOf(symbol).map((node) => analysis.rows[node][START]));
  const rows = withoutShortTargets(analysis, symbol);
  const renamed = rows.map((row) => {
    const isOwn = VARIABLES.has(row[KIND]) && starts.has(row[START]);
    return isOwn ? row.map((part, at) => (at === TEXT ? name : part)) : row;
  });
  try {
    return changesOf(analysis.positions, rows, renamed);
  } catch (error) {
    throw error instanceof EditFault ? new RenameRefusal(error.message, error.span) : error;
  }
}

function changedText(source, changes) {
  const pieces = [];
  let end = 0;
  for (const change of changes) {
    pieces.push(source.slice(end, change.start), change.text);
    end = change.end;
  }
  return [...pieces, source.slice(end)].join('');
}

function foreseeUnplaced(analysis, symbol, name) {
  const fault = unfit(name);
  if (fault !== null) {
    throw new RenameRefusal(fault);
  }
  if (name === symbol.name) {
    return { text: analysis.source, changes: [], warnings: [] };
  }
  refuseReserved(analysis, symbol, name);
  refuseTangled(analysis.once('tangled', () => tangledByPlaces(analysis)), symbol.name);
  refuseSeen(analysis, symbol);
  refuseForeseen(analysis, symbol, name);
  refuseElement(analysis, symbol, name);
  refuseDoubtful(analysis, symbol, name);
  refuseTangledAfter(analysis, symbol, name);
  const changes = changesFor(analysis, symbol, name);
  return { text: changedText(analysis.source, changes), changes, warnings: warningsFor(analysis, symbol, name) };
}

// The text in which the symbol has the name, its changes and warnings, or a RenameRefusal that is placed in the source.
function foresee(analysis, symbol, name) {
  try {
    return foreseeUnplaced(analysis, symbol, name);
  } catch (error) {
    throw error instanceof RenameRefusal ? error.placedIn(analysis.positions) : error;
  }
}

module.exports = { foresee };
