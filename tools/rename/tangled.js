'use strict';
// Names whose tables may part from the language: for such a name a reference or a declaration may belong to another variable than the
// tables say, so that no renaming of it can be promised. Which names these are, and why, the proved program says.

const { RunFault } = require('../bolgwyr/faults.js');
const { runTool } = require('../programs/index.js');
const { REASONS, UNLISTED, placesIn } = require('./tangled-places.js');

const LINE = /^tangled (\d+) ("(?:[^"\\]|\\.)*") (\S+)/;

// The first symbol of each tangled name, and the first reason, as the program tells them.
function toldOf(json) {
  const { status, signal, stdout, stderr } = runTool('tangled_names', [], json);
  if (status !== 0 && status !== 1) {
    throw new RunFault(`the lint of tangled names ended with ${signal || status}: ${stderr.trim()}`);
  }
  const lines = stdout.toString('utf8').split('\n').filter((line) => line !== '');
  return lines.map((line) => {
    const [, symbol, name, reason] = LINE.exec(line);
    return { symbol: Number(symbol), name: JSON.parse(name), reason };
  });
}

// The tangled names of a tree with its tables, each with a reason in words and the span that shows it.
function tangledNames({ tree, report, json }) {
  const found = new Map();
  const told = toldOf(json);
  const isClear = told.length === 0 && report.symbols.every(({ name }) => name !== '__proto__');
  if (isClear) {
    return found;
  }
  const places = placesIn(tree, report);
  for (const { symbol, name, reason } of told) {
    found.set(name, { reason: REASONS[reason], span: places.spanOf(name, reason) || report.symbols[symbol].span });
  }
  for (const [name, unlisted] of places.firstOf(UNLISTED)) {
    if (!found.has(name)) {
      found.set(name, unlisted);
    }
  }
  return found;
}

module.exports = { tangledNames };
