'use strict';
// Compares the analyser's references and scopes with those of eslint-scope. Each difference is of a listed kind or unlisted;
// docs/DIFFERENCES.md explains the listed kinds.

const { treeOf } = require('../source-to-tree/convert');
const { Analysis, reportOf } = require('./analysis');
const { EslintScopes } = require('./eslint-scope');
const { SHOWN, NONE } = require('./differences');

// True where a declaration of the symbol is a function in a block.
const isBlockFunction = (ours, symbol) => symbol !== undefined && [...symbol.starts].some((start) => ours.blockFunctions.has(start));

const isCatchName = (symbol) => symbol !== undefined && symbol.flags.includes('CatchVariable');
const equalSets = (a, b) => (a === null || b === null ? a === b : a.size === b.size && [...a].every((start) => b.has(start)));

// The listed kind of a reference that is tied otherwise, or null.
function kindOfTie(ours, reference, named) {
  if (isBlockFunction(ours, reference.symbol) || named.some((symbol) => isBlockFunction(ours, symbol))) return 'function in a block';
  if (isCatchName(reference.symbol)) return 'var of a catch name';
  let node = reference.node;
  while (ours.rows[node][1] !== 'heritage' && node > 0) node = ours.parents[node];
  return node > 0 && reference.symbol && ours.kind(reference.symbol.node) === 'Class' ? 'class in its own heritage' : null;
}

function compareReferences(ours, theirs, note) {
  const found = theirs.references();
  const byName = new Map();
  for (const symbol of ours.symbols) byName.set(symbol.name, [...(byName.get(symbol.name) || []), symbol]);
  for (const reference of ours.references) {
    const start = ours.start(reference.node);
    const other = found.get(start);
    const where = `${reference.name} at ${start}`;
    found.delete(start);
    if (other === undefined) {
      note(null, `reference ${where} is ours alone`);
      continue;
    }
    const ways = [reference.flags.includes('Read'), reference.flags.includes('Write')];
    if (ways[0] !== other.read || ways[1] !== other.write) note(null, `reference ${where} is ${reference.flags.join('+')} here`);
    if (!equalSets(reference.symbol ? reference.symbol.starts : null, other.starts)) {
      note(kindOfTie(ours, reference, byName.get(reference.name) || []), `reference ${where} is tied otherwise`);
    }
  }
  const bound = new Set(ours.rows.filter((row) => row[2] === 'BindingIdentifier').map((row) => row[3]));
  for (const [start, { name }] of found) if (!bound.has(start)) note(null, `reference ${name} at ${start} is theirs alone`);
}

const KINDS = {
  Program: 'Program', FunctionDeclaration: 'Function', FunctionExpression: 'Function', ArrowFunctionExpression: 'ArrowFunctionExpression',
  ClassDeclaration: 'Class', ClassExpression: 'Class', BlockStatement: 'BlockStatement', CatchClause: 'CatchClause',
  ForStatement: 'ForStatement', ForInStatement: 'ForInStatement', ForOfStatement: 'ForOfStatement',
  SwitchStatement: 'SwitchStatement', WithStatement: 'WithStatement', StaticBlock: 'StaticBlock',
};

// Their scopes by kind and place, as the analyser has them: a module's and the program's are one, a function expression's name
// is the function's, a class's own name is not its scope's where it is a declaration, and what a clause catches is its block's.
function theirScopes(theirs, note) {
  const scopes = new Map();
  const named = [];
  const put = (kind, start, names) => {
    const key = `${kind}@${start}`;
    if (!scopes.has(key)) scopes.set(key, new Set());
    for (const name of names) scopes.get(key).add(name);
  };
  for (const { type, node, start, names } of theirs.scopes()) {
    const kind = KINDS[node.type];
    if (type === 'class-field-initializer') note('value of a field');
    else if (type === 'function-expression-name') named.push([kind, start, names]);
    else if (type === 'catch') {
      put(kind, start, []);
      put('BlockStatement', theirs.offsets.at(node.body.start), names);
    } else put(kind, kind === 'Program' ? 0 : start, node.type === 'ClassDeclaration' ? [] : names);
  }
  for (const [kind, start, names] of named) {
    note('name of a function expression');
    put(kind, start, names);
  }
  return scopes;
}

const FOR = /^For/;

function kindOfNames(ours, name) {
  const symbols = ours.symbols.filter((symbol) => symbol.name === name);
  if (symbols.some((symbol) => isBlockFunction(ours, symbol))) return 'function in a block';
  if (symbols.some(isCatchName)) return 'var of a catch name';
  return null;
}

function compareScopes(ours, theirs, note) {
  const found = theirScopes(theirs, note);
  for (const scope of ours.scopes) {
    const kind = ours.kind(scope.node);
    const key = `${kind}@${kind === 'Program' ? 0 : ours.start(scope.node)}`;
    const names = found.get(key);
    found.delete(key);
    if (names === undefined) {
      note(FOR.test(kind) && scope.names.size === 0 ? 'loop without lexical names' : null, `scope ${key} is ours alone`);
      continue;
    }
    for (const name of scope.names.keys()) if (!names.has(name)) note(kindOfNames(ours, name), `${name} is bound in ${key} here`);
    for (const name of names) if (!scope.names.has(name)) note(kindOfNames(ours, name), `${name} is bound in ${key} there`);
  }
  for (const key of found.keys()) note(null, `scope ${key} is theirs alone`);
}

// Counts the differences of listed kinds and lists the others. Gives null where eslint-scope's parser refuses the text.
function compareWithEslint(source, tree, report) {
  const counts = {};
  const unlisted = [];
  const note = (kind, text) => {
    if (kind === null) unlisted.push(text);
    else counts[kind] = (counts[kind] || 0) + 1;
  };
  let theirs;
  try {
    theirs = new EslintScopes(source, tree.goal);
  } catch (error) {
    if (error instanceof SyntaxError) return null;
    throw error;
  }
  const ours = new Analysis(tree, report);
  compareReferences(ours, theirs, note);
  compareScopes(ours, theirs, note);
  return { counts, unlisted, references: ours.references.length, scopes: ours.scopes.length };
}

function comparisonOf(source) {
  const { json } = treeOf(source, { filename: 'x.js' });
  return compareWithEslint(source, JSON.parse(json), reportOf(json).report);
}

// That each listed difference shows where it is said to, and no other there.
function checkDifferences(tally) {
  for (const [kind, sources] of Object.entries(SHOWN)) {
    for (const source of sources) {
      const { counts, unlisted } = comparisonOf(source);
      const kinds = Object.keys(counts).join(', ');
      tally.check(`${kind}: ${source}`, unlisted.length === 0 && kinds === kind, `${kinds}; ${unlisted.join('; ')}`);
    }
  }
  for (const source of NONE) {
    const { counts, unlisted } = comparisonOf(source);
    tally.check(`no difference: ${source}`, unlisted.length === 0 && Object.keys(counts).length === 0, `${JSON.stringify(counts)} ${unlisted.join('; ')}`);
  }
}

module.exports = { compareWithEslint, checkDifferences };
