'use strict';
// Short local names in a source text, by the proved mangler.

const { RunFault } = require('../bolgwyr/faults.js');
const { Positions } = require('../analyse/positions.js');
const { TEXT } = require('../edits/rows.js');
const { runTool } = require('../programs/index.js');
const { analysed, withTables } = require('../rename/analysed.js');
const { RenameRefusal } = require('../rename/refusal.js');
const { changedText, placing, refuseNewErrors } = require('../rename/symbol.js');
const { tangledNames } = require('../rename/tangled.js');

// The tree of the proved mangler.
function provedTree(analysis, { toplevel }) {
  const run = runTool('mangler', toplevel ? ['--toplevel'] : [], analysis.json);
  if (run.status !== 0) {
    throw new RunFault(`the mangler ended with ${run.signal || run.status}: ${run.stderr.trim()}`);
  }
  return JSON.parse(run.stdout.toString('utf8'));
}

// The names that rows have in one tree and not in the other one: those that change, and those that they become.
function changedNames(rows, mangled) {
  const names = { old: new Set(), fresh: new Set() };
  rows.forEach((row, node) => {
    const text = mangled[node] === undefined ? row[TEXT] : mangled[node][TEXT];
    if (row[TEXT] !== text) {
      names.old.add(row[TEXT]);
      names.fresh.add(text);
    }
  });
  return names;
}

// The tables are what the mangler goes by, so that it can't change a name at which they may part from the language.
function refuseTangled(analysis, { old }) {
  for (const [name, { reason, span }] of tangledNames(analysis)) {
    if (old.has(name)) {
      throw new RenameRefusal(`\`${name}\` can't be followed: ${reason}`, span);
    }
  }
}

function refuseTangledAfter(mangled, { fresh }, placeBefore) {
  for (const [name, { reason, span }] of tangledNames(mangled)) {
    if (fresh.has(name)) {
      const start = placeBefore(span.start);
      throw new RenameRefusal(`\`${name}\` couldn't be followed: ${reason}`, { start, end: start });
    }
  }
}

function mangledText(analysis, { toplevel, map }) {
  const wanted = { ...analysis.tree, rows: provedTree(analysis, { toplevel }).rows };
  const names = changedNames(analysis.rows, wanted.rows);
  refuseTangled(analysis, names);
  const { text, edits, map: sourceMap, placeBefore, tree, json } = changedText(analysis, wanted, map);
  const mangled = withTables({ options: analysis.options, source: text, positions: new Positions(text), json, tree });
  refuseNewErrors(analysis, mangled, placeBefore);
  refuseTangledAfter(mangled, names, placeBefore);
  return { text, edits, map: sourceMap };
}

// Options:
//   file          its name tells the language, as `parser` and `goal` do in its place
//   toplevel      a script's own variables get short names, too
//   map           asks for a source map
// Gives `{ text, edits, map }`, or throws a RenameRefusal where a name can't be followed, or a RunFault.
function mangle(text, options = {}) {
  const { file = 'input.js', parser, goal, toplevel = false, map = false } = options;
  const analysis = analysed(text, { filename: file, ...(parser && { parser }), ...(goal && { goal }) });
  return placing(analysis, () => mangledText(analysis, { toplevel, map }));
}

module.exports = { RenameRefusal, mangle };
