'use strict';
// Names that are seen by more than the tables tie to the symbol: a renaming of it alone would change what others see.

const { KIND, MARKS, ROLE, TEXT } = require('../edits/rows.js');

const isTyped = ({ tree }) => tree.lang !== 'js' && tree.lang !== 'jsx';

const MEMBER_MARKS = ['public', 'private', 'protected', 'readonly', 'override'];

// `constructor(private a)` declares a property, too.
function parameterProperty(analysis, symbol) {
  const { rows, parents } = analysis;
  for (const node of analysis.occurrencesOf(symbol)) {
    const above = rows[parents[node]];
    if (above[KIND] === 'FormalParameter' && MEMBER_MARKS.some((mark) => above[MARKS].includes(mark))) {
      return { message: 'this parameter is a property of its class, too', node };
    }
  }
  return null;
}

// Of `namespace A.B {}` the second name is a member of the first.
function dottedNamespace(analysis, symbol) {
  const { rows, parents } = analysis;
  for (const node of analysis.occurrencesOf(symbol)) {
    const above = parents[node];
    const isName = rows[above][KIND] === 'TSNamespaceDeclaration' && rows[node][ROLE] === 'id';
    if (isName && rows[parents[above]][KIND] === 'TSNamespaceDeclaration') {
      return { message: 'a namespace with a dot in its name exports it', node };
    }
  }
  return null;
}

const GENERIC = new Set(['TSInterfaceDeclaration', 'Class']);

// The declarations of an interface that are merged have the same type parameters. In a namespace or module, others may be elsewhere.
function mergedParameter(analysis, symbol) {
  const { rows, parents, report } = analysis;
  if (!symbol.flags.includes('TypeParameter')) {
    return null;
  }
  const [node] = analysis.occurrencesOf(symbol);
  const owner = parents[parents[parents[node]]];
  const name = GENERIC.has(rows[owner][KIND]) ? analysis.nameOf(owner) : -1;
  const merged = name < 0 ? null : analysis.symbolOf(name);
  if (merged === null || (merged.redeclarations.length < 2 && !report.scopes[merged.scope].flags.includes('TsModuleBlock'))) {
    return null;
  }
  return { message: `declarations of \`${merged.name}\` that are merged have the same type parameters`, node };
}

const AMBIENT = new Set(['TSGlobalDeclaration', 'TSExternalModuleDeclaration']);

function isAmbient(analysis, node) {
  const { rows, parents, tree } = analysis;
  if (tree.lang === 'dts') {
    return true;
  }
  for (let at = node; at >= 0; at = parents[at]) {
    if (AMBIENT.has(rows[at][KIND]) || rows[at][MARKS].includes('declare')) {
      return true;
    }
  }
  return false;
}

// What stands directly in an ambient namespace or module is exported without a word.
function ambientMember(analysis, symbol) {
  const { node, flags } = analysis.report.scopes[symbol.scope];
  if (!flags.includes('TsModuleBlock') || !isAmbient(analysis, node)) {
    return null;
  }
  return { message: 'what an ambient namespace or module declares is exported', node: analysis.occurrencesOf(symbol)[0] };
}

const LISTS = new Set(['ExportNamedDeclaration', 'ExportFromDeclaration', 'ExportAllDeclaration', 'TSExportAssignment']);
const DECLARED = new Set(['Function', 'Class', 'TSInterfaceDeclaration']);

// A statement that makes the exports of a module of declarations just those that are said to be.
function saysExports({ rows, ends }, node) {
  const isDefault = rows[node][KIND] === 'ExportDefaultDeclaration' && ends[node] > node + 1;
  return LISTS.has(rows[node][KIND]) || (isDefault && !DECLARED.has(rows[node + 1][KIND]));
}

// A module of declarations exports all that it declares, unless a statement of it says what.
function declaredModule(analysis, symbol) {
  const { rows, report, tree } = analysis;
  const isTop = report.scopes[symbol.scope].parent === null;
  if (tree.lang !== 'dts' || tree.goal !== 'module' || !isTop || symbol.flags.some((flag) => flag.includes('Import'))) {
    return null;
  }
  const saying = rows.some((row, node) => saysExports(analysis, node));
  return saying ? null : { message: 'a module of declarations exports all that it declares', node: analysis.occurrencesOf(symbol)[0] };
}

// `x is T` in the type of what a function returns names a parameter, which the tables don't tie.
function predicate(analysis, symbol) {
  const { rows, parents, ends, report } = analysis;
  const { node: scope } = report.scopes[symbol.scope];
  for (let node = scope; node < ends[scope]; node += 1) {
    const isName = rows[node][KIND] === 'IdentifierName' && rows[node][TEXT] === symbol.name;
    if (isName && rows[parents[node]][KIND] === 'TSTypePredicate') {
      return { message: 'a type predicate names this parameter', node };
    }
  }
  return null;
}

const TYPED_WAYS = [parameterProperty, dottedNamespace, mergedParameter, ambientMember, declaredModule, predicate];

// What else sees the symbol's name: a message and the row that shows it, or null.
function seenByOthers(analysis, symbol) {
  if (!isTyped(analysis)) {
    return null;
  }
  for (const way of TYPED_WAYS) {
    const seen = way(analysis, symbol);
    if (seen !== null) {
      return seen;
    }
  }
  return null;
}

const PRAGMA = /@jsx(?:Frag)?\s+([$\w]+)/g;

// The names by which a compiler of JSX may call what makes elements.
function factories(analysis) {
  const named = [...analysis.source.matchAll(PRAGMA)].map((found) => found[1]);
  return new Set(['React', ...named]);
}

const hasJsx = ({ rows }) => rows.some((row) => row[KIND] === 'JSXElement' || row[KIND] === 'JSXFragment');

const COMMON = new Set(['module', 'exports', 'require']);

// Whether the symbol is a property of the global object, or seen by other scripts: not in modules of CommonJS.
function isGlobal({ tree, report, options }, symbol) {
  const isTop = tree.goal === 'script' && report.scopes[symbol.scope].parent === null;
  return isTop && !/\.c[jt]s$/i.test(options.filename) && !report.free.some(({ name }) => COMMON.has(name));
}

// What a renaming may change that no table knows, each in one line.
function warningsFor(analysis, symbol, name) {
  const warnings = [];
  if (isGlobal(analysis, symbol)) {
    warnings.push(`\`${symbol.name}\` is a name of a script's top level: other scripts of a page may use it`);
  }
  if ([symbol.name, name].some((each) => factories(analysis).has(each)) && hasJsx(analysis)) {
    warnings.push('a compiler may turn JSX into calls of this name');
  }
  return warnings;
}

module.exports = { seenByOthers, warningsFor };
