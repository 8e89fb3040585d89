'use strict';
// For each binding identifier of a tree: what it is declared as, and the part of the program at whose level `var` would bind it.

const { DEPTH, KIND, MARKS, ROLE, TEXT } = require('../edits/rows.js');

const FUNCTIONS = new Set(['Function', 'ArrowFunctionExpression']);
const BODIES = new Set(['Program', 'StaticBlock', 'TSModuleBlock']);

// How a node declares the binding identifiers below it; `null` for a node that leaves this to the one around it.
const WAYS = {
  FormalParameter: () => 'parameter',
  FormalParameterRest: () => 'parameter',
  FormalParameters: () => 'parameter',
  CatchParameter: () => 'catch',
  VariableDeclarator: (row, above) => (above[TEXT] === 'var' ? 'var' : 'lexical'),
  Function: (row) => (row[TEXT] === 'expression' ? 'own name' : 'function'),
  Class: () => 'lexical',
};

function wayOf(row, above) {
  const way = WAYS[row[KIND]];
  if (way !== undefined) {
    return way(row, above);
  }
  return row[KIND].startsWith('Import') || row[KIND].startsWith('TS') ? 'lexical' : null;
}

const isHome = (row) => BODIES.has(row[KIND]) || FUNCTIONS.has(row[KIND]);

// A declared function's name belongs to what is around the function.
const isOuterName = (row, above) => above[KIND] === 'Function' && row[ROLE] === 'id' && above[TEXT] !== 'expression';

// Whether a function stands directly in the list of a body, in a block, or as the branch of an `if`; labels and exports don't count.
function standingOf(rows, parents, node) {
  let above = parents[node];
  while (rows[above][KIND] === 'LabeledStatement' || rows[above][KIND].startsWith('Export')) {
    above = parents[above];
  }
  if (rows[above][KIND] === 'FunctionBody' || BODIES.has(rows[above][KIND])) {
    return 'function';
  }
  return rows[above][KIND] === 'IfStatement' ? 'if function' : 'block function';
}

// A function in a block binds there alone in strict code, and where it is `async` or a generator.
function functionWay(rows, parents, node, isStrict) {
  const standing = standingOf(rows, parents, node);
  const isPlain = !rows[node][MARKS].includes('async') && !rows[node][MARKS].includes('generator');
  return standing === 'function' || (isPlain && !isStrict) ? standing : 'lexical';
}

// Walks the rows once. `visit` gets each binding identifier as `{ node, name, way, home, scope }`, and `enter` each row before.
function eachDeclaration({ rows, parents, report, enter, visit }) {
  const scopeAt = new Map(report.scopes.map((scope) => [scope.node, scope]));
  const homes = new Int32Array(rows.length);
  const owners = new Int32Array(rows.length).fill(-1);
  const ways = new Array(rows.length).fill(null);
  const scopes = new Array(rows.length).fill(null);
  rows.forEach((row, node) => {
    const up = parents[node];
    const above = up < 0 ? null : rows[up];
    homes[node] = up >= 0 && isHome(above) && !isOuterName(row, above) ? up : homes[Math.max(up, 0)];
    scopes[node] = up < 0 ? null : scopeAt.get(up) || scopes[up];
    ways[node] = up < 0 ? null : wayOf(row, above);
    owners[node] = ways[node] === null && up >= 0 ? owners[up] : node;
    enter(row, node);
    if (row[KIND] !== 'BindingIdentifier') {
      return;
    }
    const owner = owners[node];
    const strict = scopes[owner] !== null && scopes[owner].flags.includes('StrictMode');
    const way = ways[owner] === 'function' ? functionWay(rows, parents, owner, strict) : ways[owner];
    visit({ node, name: row[TEXT], way, home: homes[node], scope: scopes[node], depth: row[DEPTH] });
  });
}

module.exports = { eachDeclaration };
