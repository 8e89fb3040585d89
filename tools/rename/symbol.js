'use strict';
// The renaming of one symbol of an analysed text.

const { RunFault } = require('../bolgwyr/faults.js');
const { Positions } = require('../analyse/positions.js');
const { EditFault, edited } = require('../edits/index.js');
const { runTool } = require('../programs/index.js');
const { withTables } = require('./analysed.js');
const { refuseReserved, refuseSeen, refuseTangled } = require('./by-itself.js');
const { changedError } = require('./early-errors.js');
const { inWords } = require('./meets.js');
const { RenameRefusal } = require('./refusal.js');
const { warningsFor } = require('./seen.js');
const { withSpecifiers } = require('./specifiers.js');
const { tangledNames } = require('./tangled.js');
const { unexported } = require('./unexported.js');
const { writtenOut } = require('./written-out.js');

const REFUSED = 8;

// The tree of the proved renamer.
function provedTree(analysis, symbol, name) {
  const run = runTool('renamer', [String(symbol.id), name], analysis.json);
  const line = run.stderr.trim();
  const refusal = run.status === REFUSED ? inWords({ analysis, symbol, name, line }) : null;
  if (refusal !== null) {
    throw refusal;
  }
  if (run.status !== 0) {
    throw new RunFault(`the renamer ended with ${run.signal || run.status}: ${line}`);
  }
  return JSON.parse(run.stdout.toString('utf8'));
}

function changedText(analysis, tree, map) {
  const { source, options, positions } = analysis;
  try {
    return edited(source, analysis.tree, tree, { ...options, positions, map });
  } catch (error) {
    if (!(error instanceof EditFault)) {
      throw error;
    }
    throw new RenameRefusal(error.message, error.span);
  }
}

function refuseNewErrors(analysis, renamed, placeBefore) {
  const changed = changedError(analysis.report, renamed.report, placeBefore);
  if (changed === null) {
    return;
  }
  const { diagnostic, isNew } = changed;
  const [label] = diagnostic.labels;
  const start = label === undefined ? null : isNew ? placeBefore(label.span.start) : label.span.start;
  const message = isNew ? 'the renamed text would have an error' : 'the renamed text would lose an error';
  throw new RenameRefusal(`${message}: ${diagnostic.message}`, start === null ? null : { start, end: start });
}

function refuseTangledAfter(renamed, name, placeBefore) {
  const tangled = tangledNames(renamed).get(name);
  if (tangled !== undefined) {
    const start = placeBefore(tangled.span.start);
    throw new RenameRefusal(`\`${name}\` couldn't be followed: ${tangled.reason}`, { start, end: start });
  }
}

// The tree that the renamed text must have. Where the symbol is exported by its declaration, its export gets the name, too.
function wantedTree(analysis, symbol, name, { isExported, specifiers }) {
  if (symbol === null) {
    return { ...analysis.tree, rows: withSpecifiers(analysis.rows, specifiers, name) };
  }
  const apart = isExported ? unexported(analysis, symbol) : null;
  const rows = apart === null
    ? provedTree(analysis, symbol, name).rows
    : apart.back(provedTree(apart.analysis, apart.analysis.report.symbols[symbol.id], name));
  return { ...analysis.tree, rows: withSpecifiers(rows, specifiers, name) };
}

function renamedText(analysis, wanted, name, { map }) {
  const { text, edits, map: sourceMap, placeBefore, tree, json } = changedText(analysis, wanted, map);
  const renamed = withTables({ options: analysis.options, source: text, positions: new Positions(text), json, tree });
  refuseNewErrors(analysis, renamed, placeBefore);
  refuseTangledAfter(renamed, name, placeBefore);
  return { text, edits, map: sourceMap, placeBefore, renamed };
}

// A tangled name is refused before and after: the tables of either text may part from the language at it.
function renameUnplaced(given, { id }, name, options) {
  const symbolGiven = given.report.symbols[id];
  refuseReserved(given, symbolGiven, name);
  refuseTangled(given.once('tangled', () => tangledNames(given)), symbolGiven.name);
  refuseSeen(given, symbolGiven);
  const analysis = writtenOut(given, symbolGiven);
  const symbol = analysis.report.symbols[id];
  const wanted = wantedTree(analysis, symbol, name, options);
  return { ...renamedText(analysis, wanted, name, options), warnings: warningsFor(analysis, symbol, name) };
}

const DEFAULTS = { map: false, isExported: false, specifiers: new Map() };

function placing(analysis, run) {
  try {
    return run();
  } catch (error) {
    throw error instanceof RenameRefusal ? error.placedIn(analysis.positions) : error;
  }
}

// The text in which the symbol has the name: `{ text, edits, map, warnings, .. }`, or a RenameRefusal that is placed in the source.
// Options:
//   map         asks for a source map
//   isExported  its declaration is exported, and the export gets the name
//   specifiers  names in specifiers that get the name, too (specifiers.js)
function renameSymbol(analysis, symbol, name, options = {}) {
  return placing(analysis, () => renameUnplaced(analysis, symbol, name, { ...DEFAULTS, ...options }));
}

// The same of names in specifiers alone.
function renameSpecifiers(analysis, specifiers, name) {
  const options = { ...DEFAULTS, specifiers };
  return placing(analysis, () => ({ ...renamedText(analysis, wantedTree(analysis, null, name, options), name, options), warnings: [] }));
}

module.exports = { changedText, placing, refuseNewErrors, renameSpecifiers, renameSymbol };
