'use strict';
// Where it shows that the tables of a name may part from TypeScript, for seven reasons of crates/tangle_model, by one pass over the rows.

const { END, KIND, MARKS, ROLE, START, TEXT } = require('../edits/rows.js');

const HOMES = new Set(['Program', 'Function', 'ArrowFunctionExpression', 'StaticBlock', 'TSModuleBlock']);
const INNER_BLOCKS = new Set(['BlockStatement', 'ForStatement', 'ForInStatement', 'ForOfStatement', 'SwitchStatement', 'WithStatement']);
// The flags of symbols that are types.
const TYPES = new Set(['Class', 'Interface', 'RegularEnum', 'ConstEnum', 'EnumMember', 'TypeParameter', 'TypeAlias']);
// What names of a declaration may stand in.
const PATTERNS = new Set([
  'VariableDeclarator', 'ObjectPattern', 'ArrayPattern', 'AssignmentPattern', 'BindingProperty', 'BindingRestElement',
]);
const STATEMENTS = new Set(['declaration', 'ts-declare']);

// The rows with the directive that makes code strict.
function directed(rows, parents) {
  const found = new Set();
  rows.forEach((row, node) => {
    if (row[KIND] === 'Directive' && row[TEXT] === 'use strict') {
      found.add(parents[node]);
    }
  });
  return found;
}

// What is around the rows below each row. Of parts of conditional types and of index signatures it is the outermost; 0 stands for none.
class Surroundings {
  constructor(rows, parents, isModule) {
    Object.assign(this, { rows, parents, isModule, strict: directed(rows, parents) });
    const flags = () => new Uint8Array(rows.length);
    Object.assign(this, { isStrict: flags(), inInnerBlock: flags(), inExtends: flags(), inTypeParameters: flags(), exportsTypes: flags(), isVar: flags() });
    Object.assign(this, { extends: new Int32Array(rows.length), indexSignature: new Int32Array(rows.length) });
    rows.forEach((row, node) => this.enter(row, node));
  }

  enter(row, node) {
    const { rows, parents } = this;
    const up = parents[node];
    const kind = row[KIND];
    const above = (values, outside = 0) => (up < 0 ? outside : values[up]);
    const isPart = up >= 0 && rows[up][KIND] === 'TSConditionalType' && row[ROLE] === 'extends';
    this.isStrict[node] = above(this.isStrict, this.isModule) || kind === 'ClassBody' || this.strict.has(node);
    this.inInnerBlock[node] = !HOMES.has(kind) && (INNER_BLOCKS.has(kind) || above(this.inInnerBlock));
    this.inExtends[node] = kind !== 'TSConditionalType' && (isPart || above(this.inExtends));
    this.extends[node] = above(this.extends) || (isPart ? node : 0);
    this.indexSignature[node] = above(this.indexSignature) || (kind === 'TSIndexSignature' ? node : 0);
    this.inTypeParameters[node] = kind === 'TSTypeParameterDeclaration' || above(this.inTypeParameters);
    this.exportsTypes[node] = this.exportsTypesIn(row, above(this.exportsTypes));
    this.isVar[node] = kind === 'VariableDeclaration' ? row[TEXT] === 'var' : PATTERNS.has(kind) && above(this.isVar);
  }

  exportsTypesIn(row, above) {
    const isType = row[MARKS].includes('type');
    return row[KIND] === 'ExportNamedDeclaration' ? isType : row[KIND] === 'ExportSpecifier' && (isType || above);
  }
}

// Names of one sort with the rows that have them; `whole` is what both rows of a pair stand in.
class Noted {
  constructor() {
    this.all = [];
    this.keys = new Set();
  }

  add(name, node, whole = 0) {
    this.all.push({ name, node, key: `${whole} ${name}` });
    this.keys.add(`${whole} ${name}`);
  }

  // Those whose names another sort has in the same whole.
  metBy(other) {
    return this.all.filter(({ key }) => other.keys.has(key));
  }
}

const SORTS = ['besideInfer', 'inferred', 'inSignature', 'indexParameter', 'inTypeParameters', 'innerFunction', 'exportedType', 'passingVariable'];

function noteReference(noted, around, row, node) {
  const up = around.parents[node];
  if (around.extends[up] !== 0) noted.besideInfer.add(row[TEXT], node, around.extends[up]);
  if (around.indexSignature[up] !== 0) noted.inSignature.add(row[TEXT], node, around.indexSignature[up]);
  if (around.inTypeParameters[up]) noted.inTypeParameters.add(row[TEXT], node);
  if (around.exportsTypes[up]) noted.exportedType.add(row[TEXT], node);
}

function noteBinding(noted, around, row, node) {
  const { rows, parents } = around;
  const up = parents[node];
  const outer = parents[up];
  if (rows[up][KIND] === 'Function' && STATEMENTS.has(rows[up][TEXT]) && around.inInnerBlock[outer] && !around.isStrict[outer]) {
    noted.innerFunction.add(row[TEXT], node);
  }
  if (around.isVar[up] && around.inInnerBlock[up]) noted.passingVariable.add(row[TEXT], node);
  if (rows[up][KIND] === 'TSTypeParameter' && rows[outer][KIND] === 'TSInferType') {
    noted.inferred.add(row[TEXT], node, around.extends[outer]);
    if (!around.inExtends[outer]) noted.besideInfer.add(row[TEXT], node, around.extends[outer]);
  }
}

function notedIn(rows, parents, isModule) {
  const around = new Surroundings(rows, parents, isModule);
  const noted = Object.fromEntries(SORTS.map((sort) => [sort, new Noted()]));
  rows.forEach((row, node) => {
    if (row[KIND] === 'IdentifierReference') {
      noteReference(noted, around, row, node);
    } else if (row[KIND] === 'BindingIdentifier') {
      noteBinding(noted, around, row, node);
    } else if (row[KIND] === 'TSIndexSignatureName') {
      noted.indexParameter.add(row[TEXT], node, around.indexSignature[parents[node]]);
    }
  });
  return noted;
}

// The names of parameters, and of variables outside of the root.
function innerVariables({ symbols }) {
  const found = symbols.filter(({ flags, scope }) => scope !== 0 && flags.includes('FunctionScopedVariable'));
  return new Set(found.map(({ name }) => name));
}

// The names of variables and parameters that are types as well.
function typedVariables({ symbols }) {
  const found = symbols.filter(({ flags }) => flags.includes('FunctionScopedVariable') && flags.some((flag) => TYPES.has(flag)));
  return new Set(found.map(({ name }) => name));
}

// The own names of function expressions that types have as well.
function typedOwnNames({ symbols }) {
  const types = new Set(symbols.filter(({ flags }) => flags.some((flag) => TYPES.has(flag))).map(({ name }) => name));
  return symbols.filter(({ name, flags }) => flags.includes('FunctionExpression') && types.has(name));
}

// The names that several symbols have.
function sharedNames({ symbols }) {
  const seen = new Set();
  const shared = new Set();
  for (const { name } of symbols) {
    (seen.has(name) ? shared : seen).add(name);
  }
  return shared;
}

// Notes each name with a reason and the span that shows it.
function typescriptPlaces({ rows, parents, report, isModule }, note) {
  const noted = notedIn(rows, parents, isModule);
  const inner = innerVariables(report);
  const typed = typedVariables(report);
  const shared = sharedNames(report);
  const noteAll = (reason, found) => found.forEach(({ name, node }) => note(name, reason, { start: rows[node][START], end: rows[node][END] }));
  noteAll('InferredName', noted.besideInfer.metBy(noted.inferred));
  noteAll('HiddenParameter', noted.inTypeParameters.all.filter(({ name }) => inner.has(name)));
  noteAll('IndexParameter', noted.inSignature.metBy(noted.indexParameter));
  noteAll('SloppyFunction', noted.innerFunction.all.filter(({ name }) => shared.has(name)));
  noteAll('ExportedType', noted.exportedType.all.filter(({ name }) => shared.has(name)));
  noteAll('TypedVariable', noted.passingVariable.all.filter(({ name }) => typed.has(name)));
  typedOwnNames(report).forEach(({ name, span }) => note(name, 'TypedFunctionName', span));
}

module.exports = { TYPES, sharedNames, typescriptPlaces };
