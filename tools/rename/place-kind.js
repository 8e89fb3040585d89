'use strict';
// What kind of code an occurrence of a symbol stands in, for the rules on names.

const { KIND, MARKS, ROLE, TEXT } = require('../edits/rows.js');

const FUNCTIONS = new Set(['Function', 'ArrowFunctionExpression']);

// The function or static block around a row, or -1. A declared function's own name stands outside of it.
function functionAround(analysis, node) {
  const { rows, parents } = analysis;
  let at = node;
  for (let up = parents[at]; up >= 0; at = up, up = parents[up]) {
    const isOwnName = rows[at][ROLE] === 'id' && rows[up][TEXT] !== 'expression';
    if (rows[up][KIND] === 'StaticBlock' || (FUNCTIONS.has(rows[up][KIND]) && !isOwnName)) {
      return up;
    }
  }
  return -1;
}

const TYPE_FLAGS = ['Interface', 'TypeAlias', 'TypeParameter', 'Class', 'RegularEnum', 'ConstEnum'];

// `node` is a row that declares the symbol or means it.
function placeKind(analysis, symbol, node) {
  const { rows, report, tree, referenceAt } = analysis;
  const around = functionAround(analysis, node);
  const reference = referenceAt.get(node);
  const scope = report.scopes[reference === undefined ? symbol.scope : reference.scope];
  const marks = around < 0 ? [] : rows[around][MARKS];
  const isTyped = tree.lang !== 'js' && tree.lang !== 'jsx';
  return {
    strict: scope.flags.includes('StrictMode'),
    module: tree.goal === 'module',
    async: marks.includes('async'),
    generator: marks.includes('generator'),
    staticBlock: around >= 0 && rows[around][KIND] === 'StaticBlock',
    lexical: symbol.flags.includes('BlockScopedVariable') || symbol.flags.includes('Class'),
    scriptTop: tree.goal === 'script' && report.scopes[symbol.scope].parent === null,
    type: isTyped && TYPE_FLAGS.some((flag) => symbol.flags.includes(flag)),
  };
}

module.exports = { placeKind };
