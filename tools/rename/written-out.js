'use strict';
// Properties in short that are assigned to, `({ a } = o)`, written out: `({ a: a } = o)` means the same, and in it the renamer can
// change the second name alone. The text stays: the edits write the key where they change the name.

const { RunFault } = require('../bolgwyr/faults.js');
const { withTables } = require('./analysed.js');
const { withoutShortTargets } = require('./short-targets.js');

// The tables of two trees that differ in the numbers of nodes alone.
function tablesOf({ scopes, symbols, references, diagnostics }) {
  const plain = (entry) => ({ ...entry, node: 0 });
  const plainSymbol = (symbol) => ({ ...plain(symbol), redeclarations: symbol.redeclarations.map(plain) });
  return JSON.stringify([scopes.map(plain), symbols.map(plainSymbol), references.map(plain), diagnostics]);
}

// The analysis with the properties written out that assign to the symbol in short, or the same one where there are none.
function writtenOut(analysis, symbol) {
  const rows = withoutShortTargets(analysis, symbol);
  if (rows === analysis.rows) {
    return analysis;
  }
  const { source, options, positions } = analysis;
  const tree = { ...analysis.tree, rows };
  const written = withTables({ source, options, positions, tree, json: Buffer.from(JSON.stringify(tree)) });
  if (tablesOf(written.report) !== tablesOf(analysis.report)) {
    throw new RunFault('a property that is written out has other tables');
  }
  return written;
}

module.exports = { writtenOut };
