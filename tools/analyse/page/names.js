'use strict';
// What scopes and counts are called in a page.

const KINDS = new Map([
  ['Program', 'program'],
  ['Function', 'function'],
  ['ArrowFunctionExpression', 'arrow function'],
  ['Class', 'class'],
  ['BlockStatement', 'block'],
  ['ForStatement', 'for'],
  ['ForInStatement', 'for-in'],
  ['ForOfStatement', 'for-of'],
  ['SwitchStatement', 'switch'],
  ['WithStatement', 'with'],
  ['CatchClause', 'catch'],
  ['StaticBlock', 'static block'],
]);

// What a scope is made by, in a word or two.
function scopeKind(kind) {
  return KINDS.get(kind) || kind;
}

function plural(number, one, many = `${one}s`) {
  return `${number} ${number === 1 ? one : many}`;
}

module.exports = { plural, scopeKind };
