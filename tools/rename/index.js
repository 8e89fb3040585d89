'use strict';
// Renames a variable, function, class, import or type of a source text.

const { UsageFault } = require('../bolgwyr/faults.js');
const { analysed } = require('./analysed.js');
const { unfit } = require('./identifier.js');
const { renameInProject } = require('./project.js');
const { RenameRefusal } = require('./refusal.js');
const { symbolAt } = require('./symbol-at.js');
const { renameSymbol } = require('./symbol.js');

function checkName(name) {
  const fault = unfit(name);
  if (fault !== null) {
    throw new UsageFault(fault);
  }
}

const isCount = (number) => Number.isInteger(number) && number > 0;

function checkPlace({ line, column, name }) {
  if (name === undefined && !(isCount(line) && isCount(column))) {
    throw new UsageFault('a place has a line and a column, both from 1, or a name');
  }
}

// Options:
//   file          its name tells the language, as `parser` and `goal` do in its place
//   line, column  of a declaration or a use, both from 1, or
//   name          of the one symbol that has it
//   to            the new name
//   map           asks for a source map
// Gives `{ text, edits, map, warnings }`, or throws a RenameRefusal, a UsageFault or a RunFault.
function rename(text, options) {
  const { file = 'input.js', parser, goal, line, column, name, to, map = false } = options;
  checkName(to);
  checkPlace({ line, column, name });
  const analysis = analysed(text, { filename: file, ...(parser && { parser }), ...(goal && { goal }) });
  let symbol;
  try {
    symbol = symbolAt(analysis, { line, column, name });
  } catch (error) {
    throw error instanceof RenameRefusal ? error.placedIn(analysis.positions) : error;
  }
  if (symbol.name === to) {
    return { text, edits: [], map: null, warnings: [] };
  }
  const { text: renamed, edits, map: sourceMap, warnings } = renameSymbol(analysis, symbol, to, { map });
  return { text: renamed, edits, map: sourceMap, warnings };
}

module.exports = { RenameRefusal, checkName, rename, renameInProject };
