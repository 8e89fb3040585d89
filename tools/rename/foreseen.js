'use strict';
// What the proved renamer would say of a symbol's new name, as far as the tables alone tell it: for a page, which runs no program.

const { KIND, ROLE, START, TEXT } = require('../edits/rows.js');
const { eachDeclaration } = require('./declarations.js');
const { differing, fixed } = require('./in-words.js');
const { firstNode, lookUp } = require('./lookup.js');
const { declarationsOf } = require('./text-tables.js');

// From a declaration to its names: through the parts of patterns, not into values, types and bodies.
const BINDING_ROLES = new Set(['id', 'declarators', 'properties', 'value', 'elements', 'rest', 'argument', 'left', 'pattern']);

// Whether the declaration of an export binds the name.
function isExported({ rows, parents }, node) {
  let at = node;
  while (at >= 0 && BINDING_ROLES.has(rows[at][ROLE])) {
    at = parents[at];
  }
  return at > 0 && rows[at][ROLE] === 'declaration' && rows[parents[at]][KIND] === 'ExportDeclaration';
}

// The first node of the symbol whose name others see, or -1.
function fixedNode(analysis, symbol) {
  const { rows } = analysis;
  const own = rows[symbol.node][KIND] === 'TSEnumMember' ? [symbol.node] : [];
  const bound = analysis.occurrencesOf(symbol).filter((node) => rows[node][KIND] === 'BindingIdentifier' && isExported(analysis, node));
  return [...own, ...bound].reduce((least, node) => (least < 0 || node < least ? node : least), -1);
}

function refuseFixed(analysis, symbol) {
  const node = fixedNode(analysis, symbol);
  if (node >= 0) {
    throw fixed({ analysis, node });
  }
}

// The scopes that a `var`, or a function that leaves its block, passes on its way from where it stands.
function passedScopes(report, from, to) {
  const passed = [];
  for (let scope = from; scope !== null && scope !== to; scope = report.scopes[scope].parent) {
    passed.push(scope);
  }
  return passed;
}

const LEAVING = new Set(['block function', 'if function']);

// For each symbol the scopes that bind it (`bound`), those that its declarations pass (`passed`), and whether it is a function that
// leaves its block (`leaves`), which it does only where no other has its name outside.
function scopesBySymbol(analysis) {
  const { rows, parents, report, declared } = analysis;
  const scopes = report.symbols.map(({ scope }) => ({ bound: new Set([scope]), passed: new Set(), leaves: false }));
  report.scopes.forEach(({ id, bindings }) => bindings.forEach(({ symbol }) => scopes[symbol].bound.add(id)));
  const visit = ({ node, way, scope }) => {
    const symbol = declared.get(rows[node][START]);
    if (symbol !== undefined && scope !== null && (way === 'var' || LEAVING.has(way))) {
      const own = scopes[symbol.id];
      passedScopes(report, scope.id, symbol.scope).forEach((passed) => own.passed.add(passed));
      own.leaves = own.leaves || LEAVING.has(way);
    }
  };
  eachDeclaration({ rows, parents, report, enter: () => {}, visit });
  return scopes;
}

// The scopes of a symbol in which another one can't have its name.
function scopesAgainst(analysis, symbol, other) {
  const { bound, passed, leaves } = analysis.once('scopes of symbols', () => scopesBySymbol(analysis))[symbol.id];
  const stays = leaves && firstNode(analysis, other) < firstNode(analysis, symbol);
  return stays ? [...passed] : [...bound, ...passed];
}

function areRivals(analysis, symbol, other) {
  const own = new Set(scopesAgainst(analysis, symbol, other));
  return scopesAgainst(analysis, other, symbol).some((scope) => own.has(scope));
}

// A symbol of the name that would be one with the renamed one, or undefined.
function rivalOf(analysis, symbol, name) {
  return analysis.report.symbols.find((other) => other !== symbol && other.name === name && areRivals(analysis, symbol, other));
}

// Both symbols as one. It has the number of the first, and those behind the second move up.
function merged(symbol, other) {
  const [first, second] = symbol.id < other.id ? [symbol, other] : [other, symbol];
  const spans = [...declarationsOf(first), ...declarationsOf(second)];
  return { one: { ...first, span: spans[0], redeclarations: spans.map((span) => ({ span })) }, from: second.id };
}

// The number of the symbol that each node declares or means, for nodes in order.
function numbersOf(analysis) {
  const named = new Map();
  for (const symbol of analysis.report.symbols) {
    [...analysis.occurrencesOf(symbol), firstNode(analysis, symbol)].forEach((node) => named.set(node, symbol.id));
  }
  return [...named].sort((left, right) => left[0] - right[0]);
}

function refuseRival(analysis, symbol, name) {
  const other = rivalOf(analysis, symbol, name);
  if (other === undefined) {
    return;
  }
  const { one, from } = merged(symbol, other);
  const numbers = analysis.once('numbers', () => numbersOf(analysis));
  const [node] = numbers.find(([, number]) => number === from);
  throw differing({ analysis, symbol, name, node, after: one });
}

// What scopes bind to a name once the symbol has it.
function boundAfter(analysis, symbol, name) {
  const found = new Map();
  const add = (scope, one) => found.set(scope, [...(found.get(scope) || []), one]);
  analysis.report.scopes.forEach(({ id, bindings }) => bindings
    .filter((binding) => binding.symbol === symbol.id || (binding.name === name))
    .forEach((binding) => add(id, analysis.report.symbols[binding.symbol])));
  return (scope) => found.get(scope) || [];
}

// The first reference that would mean another symbol, with that symbol or null.
function firstOther(analysis, symbol, name) {
  const boundIn = boundAfter(analysis, symbol, name);
  const { references, symbols } = analysis.report;
  const asked = references.filter((reference) => reference.symbol === symbol.id || reference.name === name);
  for (const reference of asked.sort((left, right) => left.node - right.node)) {
    const before = reference.symbol === null ? null : symbols[reference.symbol];
    const after = lookUp(analysis, reference, boundIn);
    if (after !== before) {
      return { node: reference.node, after };
    }
  }
  return null;
}

function refuseOtherMeaning(analysis, symbol, name) {
  const other = firstOther(analysis, symbol, name);
  if (other !== null) {
    throw differing({ analysis, symbol, name, ...other });
  }
}

// Throws what would be in the way of the renamer.
function refuseForeseen(analysis, symbol, name) {
  refuseFixed(analysis, symbol);
  refuseRival(analysis, symbol, name);
  refuseOtherMeaning(analysis, symbol, name);
}

// The rows and tables of the renamed program. Nothing in them but the name differs, once nothing is in the way.
function renamedTables(analysis, symbol, name) {
  const rows = analysis.rows.slice();
  for (const node of analysis.occurrencesOf(symbol)) {
    rows[node] = rows[node].map((part, at) => (at === TEXT ? name : part));
  }
  const named = (entry, isOwn) => (isOwn ? { ...entry, name } : entry);
  const { report } = analysis;
  return {
    tree: { ...analysis.tree, rows },
    report: {
      ...report,
      symbols: report.symbols.map((one) => named(one, one.id === symbol.id)),
      references: report.references.map((one) => named(one, one.symbol === symbol.id)),
      scopes: report.scopes.map((scope) => ({ ...scope, bindings: scope.bindings.map((one) => named(one, one.symbol === symbol.id)) })),
    },
  };
}

module.exports = { refuseForeseen, renamedTables };
