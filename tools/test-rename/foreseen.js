'use strict';
// Runs the tables of renamings and refusals by what a page foresees, which leaves to the command what only a parser tells.

const { analysed } = require('../rename/analysed.js');
const { foresee } = require('../rename/foresee.js');
const { RenameRefusal } = require('../rename/refusal.js');
const { symbolAt } = require('../rename/symbol-at.js');

const EDITS = require('./edits.js');
const REFUSALS = require('./refusals.js');
const { unmarked } = require('./marks.js');

// Names that a page leaves to the command: the others of the tables it tells as the command does.
const LEFT = new Set(['async', 'await', 'let', 'of', 'string', 'yield']);
const isLeft = (found, name) => LEFT.has(name) && found.endsWith('which a parser has to tell: bolgwyr rename has one');

function outcome(filename, marked, to) {
  const { text, line, column } = unmarked(marked);
  const analysis = analysed(text, { filename });
  try {
    return foresee(analysis, symbolAt(analysis, { line, column }), to).text;
  } catch (error) {
    if (!(error instanceof RenameRefusal)) {
      throw error;
    }
    const placed = error.placedIn(analysis.positions);
    return `${placed.line}:${placed.column} ${placed.message}`;
  }
}

// The wanted outcome, where the page leaves it to the command.
function asWanted(found, wanted, to) {
  return isLeft(found, to) ? wanted : found;
}

function foreseen(expect) {
  for (const [filename, marked, to, wanted] of EDITS) {
    expect(`the page: ${filename}: ${marked} -> ${to}`, wanted, asWanted(outcome(filename, marked, to), wanted, to));
  }
  for (const [filename, marked, to, place, message] of REFUSALS.filter(([, , asked]) => typeof asked === 'string')) {
    const wanted = `${place} ${message}`;
    expect(`the page: ${filename}: ${marked} -> ${to}`, wanted, asWanted(outcome(filename, marked, to), wanted, to));
  }
}

module.exports = { foreseen };
