'use strict';
// Runs the tables of renamings and refusals.

const { STATUS } = require('../bolgwyr/faults.js');
const { rename } = require('../rename/index.js');

const EDITS = require('./edits.js');
const REFUSALS = require('./refusals.js');
const { unmarked } = require('./marks.js');

function outcome(filename, text, options) {
  try {
    return { text: rename(text, { file: filename, ...options }).text };
  } catch (error) {
    if (error.status !== STATUS.FOUND) {
      throw error;
    }
    return { place: error.line ? `${error.line}:${error.column}` : null, message: error.message };
  }
}

function renamings(expect) {
  for (const [filename, marked, to, wanted] of EDITS) {
    const { text, line, column } = unmarked(marked);
    const found = outcome(filename, text, { line, column, to });
    expect(`${filename}: ${marked} -> ${to}`, wanted, found.text === undefined ? `${found.place} ${found.message}` : found.text);
  }
  for (const [filename, marked, asked, place, message] of REFUSALS) {
    const { text, line, column } = typeof asked === 'string' ? unmarked(marked) : { text: marked };
    const found = outcome(filename, text, typeof asked === 'string' ? { line, column, to: asked } : asked);
    expect(`${filename}: ${marked} -> ${asked}`, `${place} ${message}`, found.text === undefined ? `${found.place} ${found.message}` : found.text);
  }
}

module.exports = { renamings };
