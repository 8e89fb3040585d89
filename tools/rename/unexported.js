'use strict';
// A declaration under `export` apart from its export: `export let a` and `let a; export { a }` mean the same, and in the latter the
// renamer can change the name that is declared alone. The text keeps its form.

const { DEPTH, END, KIND, MARKS, ROLE, START, TEXT } = require('../edits/rows.js');
const { withTables } = require('./analysed.js');
const { RenameRefusal } = require('./refusal.js');

// The rows of the exports around the symbol's declarations at the top of the module.
function exportsAround({ rows, parents }, occurrences) {
  const found = new Set();
  for (const node of occurrences.filter((at) => rows[at][KIND] === 'BindingIdentifier')) {
    let at = node;
    while (at >= 0 && rows[at][KIND] !== 'ExportDeclaration') {
      at = parents[at];
    }
    if (at >= 0 && rows[at][DEPTH] === 1) {
      found.add(at);
    }
  }
  return found;
}

// The names that the declarations under these exports bind at the module's top.
function boundNames({ rows, ends, declared }, exported) {
  const names = new Set();
  for (const from of exported) {
    for (let node = from; node < ends[from]; node += 1) {
      const symbol = rows[node][KIND] === 'BindingIdentifier' ? declared.get(rows[node][START]) : undefined;
      if (symbol !== undefined && symbol.scope === 0) {
        names.add(symbol.name);
      }
    }
  }
  return names;
}

// A list of exports behind all that there is.
function listRows(names, end) {
  const rows = [[1, 'body', 'ExportNamedDeclaration', end, end, '', []]];
  for (const name of names) {
    rows.push([2, 'specifiers', 'ExportSpecifier', end, end, '', []]);
    rows.push([3, 'local', 'IdentifierReference', end, end, name, []]);
    rows.push([3, 'exported', 'IdentifierName', end, end, name, []]);
  }
  return rows;
}

// The rows without these exports, and where each row stands in them; -1 for an export.
function rowsWithout({ rows, ends }, exported) {
  const written = [];
  const places = new Int32Array(rows.length).fill(-1);
  let end = 0; // of the export at hand
  rows.forEach((row, node) => {
    if (exported.has(node)) {
      end = ends[node];
      return;
    }
    const lifted = row.slice();
    if (node < end) {
      lifted[DEPTH] -= 1;
      lifted[ROLE] = lifted[DEPTH] === 1 ? 'body' : lifted[ROLE];
    }
    places[node] = written.push(lifted) - 1;
  });
  return { written, places };
}

// What the tables of both trees have in common: the list of exports adds references behind all others.
function tablesOf({ scopes, symbols, references, diagnostics }, count) {
  const plain = (entry) => ({ ...entry, node: 0 });
  const plainSymbol = (symbol) => ({
    ...plain(symbol),
    redeclarations: symbol.redeclarations.map(plain),
    references: symbol.references.filter((reference) => reference < count),
  });
  return JSON.stringify([scopes.map(plain), symbols.map(plainSymbol), references.slice(0, count).map(plain), diagnostics]);
}

// The analysis without the exports around the symbol's declarations, and `back`, which gives a renamed tree of it its exports again.
function unexported(analysis, symbol) {
  const exported = exportsAround(analysis, analysis.occurrencesOf(symbol));
  const { written, places } = rowsWithout(analysis, exported);
  const end = analysis.rows[0][END];
  const tree = { ...analysis.tree, rows: [...written, ...listRows(boundNames(analysis, exported), end)] };
  const { source, options, positions } = analysis;
  const apart = withTables({ source, options, positions, tree, json: Buffer.from(JSON.stringify(tree)) });
  const count = analysis.report.references.length;
  if (tablesOf(apart.report, count) !== tablesOf(analysis.report, count)) {
    throw new RenameRefusal('the export can\'t be told apart from what it declares', symbol.span);
  }
  const back = (renamed) => analysis.rows.map((row, node) => {
    const place = places[node];
    const copy = row.slice();
    if (place >= 0) {
      copy[TEXT] = renamed.rows[place][TEXT];
      copy[MARKS] = renamed.rows[place][MARKS];
    }
    return copy;
  });
  return { analysis: apart, back };
}

module.exports = { unexported };
