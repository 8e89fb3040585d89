'use strict';
// What a reference means by the tables: scopes are asked outward, and the first symbol that fits is meant. This is the rule by
// which the proved program ties references, told again for a page that can't run it.

const { KIND, ROLE } = require('../edits/rows.js');
const { declarationsOf } = require('./text-tables.js');

const words = (text) => new Set(text.split(' '));

const VALUES = 'FunctionScopedVariable BlockScopedVariable Class Function RegularEnum ConstEnum EnumMember ValueModule Import';

// The flags of what a use by value, by type, by the type of a value, and as a namespace may mean.
const BY_VALUE = words(VALUES);
const BY_TYPE = words('Class Interface RegularEnum ConstEnum EnumMember TypeParameter TypeAlias Import TypeImport');
const BY_VALUE_AS_TYPE = words(`${VALUES} TypeImport`);
const AS_NAMESPACE = words('NamespaceModule ValueModule RegularEnum ConstEnum Import TypeImport');

const KINDS = [['Read', BY_VALUE], ['Write', BY_VALUE], ['Type', BY_TYPE], ['ValueAsType', BY_VALUE_AS_TYPE]];

// Where a name may be meant as a value or as a type: the tables keep only how it was meant in the end.
const EITHER = words('ExportSpecifier ExportDefaultDeclaration TSExportAssignment TSImportEqualsDeclaration TSQualifiedName');

// How a reference is looked up. The tables tell of the type of a value that it was a type.
const wayOf = ({ rows, parents }, { node, flags }) => (rows[parents[node]][KIND] === 'TSTypeQuery' ? ['ValueAsType'] : flags);

// Whether a use with the flags may mean a symbol with the flags.
function fits(way, flags) {
  const isAny = KINDS.some(([word, kinds]) => way.includes(word) && flags.some((flag) => kinds.has(flag)));
  const asksForNamespace = way.includes('Namespace') && !way.includes('ValueAsType');
  return isAny && (!asksForNamespace || flags.some((flag) => AS_NAMESPACE.has(flag)));
}

// What is settled before the body of a function or catch clause is seen.
const HEADERS = {
  Function: words('typeParameters this params returnType'),
  ArrowFunctionExpression: words('typeParameters this params returnType'),
  CatchClause: words('param'),
};

const isHeader = (kind, role) => Object.hasOwn(HEADERS, kind) && HEADERS[kind].has(role);

// For each row, the nearest row around it, or itself, that is a part of a header; -1 where there is none.
function headersOf({ rows, parents }) {
  const found = new Int32Array(rows.length).fill(-1);
  for (let node = 1; node < rows.length; node += 1) {
    const isPart = isHeader(rows[parents[node]][KIND], rows[node][ROLE]);
    found[node] = isPart ? node : found[parents[node]];
  }
  return found;
}

// The row behind the last part of a header.
function headerEnd({ rows, parents, ends }, opener) {
  let end = opener + 1;
  for (let node = opener + 1; node < ends[opener]; node = ends[node]) {
    if (parents[node] === opener && isHeader(rows[opener][KIND], rows[node][ROLE])) {
      end = ends[node];
    }
  }
  return end;
}

// The ends of the headers that a row stands in, by the rows that open their scopes.
function headersAround(analysis, node) {
  const headers = analysis.once('headers', () => headersOf(analysis));
  const around = new Map();
  for (let part = headers[node]; part >= 0; part = headers[analysis.parents[part]]) {
    const opener = analysis.parents[part];
    around.set(opener, headerEnd(analysis, opener));
  }
  return around;
}

// The first row that declares the symbol.
function firstNode(analysis, symbol) {
  return analysis.once(`first of ${symbol.id}`, () => {
    const nodes = declarationsOf(symbol).map(({ start }) => analysis.bindings.get(start)).filter((node) => node !== undefined);
    return nodes.length === 0 ? symbol.node : Math.min(...nodes);
  });
}

// The scopes of the bodies of catch clauses, by the clauses: they have the names that a clause catches.
function catchBodies({ rows, parents, report }) {
  const bodies = report.scopes.filter(({ node }) => node > 0 && rows[parents[node]][KIND] === 'CatchClause');
  return new Map(bodies.map(({ id, node }) => [parents[node], id]));
}

// The scopes that a look-up asks at one scope: in the header of a catch clause also that of its body.
function askedAt(analysis, scope, isHeader) {
  const bodies = analysis.once('catch bodies', () => catchBodies(analysis));
  const body = isHeader ? bodies.get(analysis.report.scopes[scope].node) : undefined;
  return body === undefined ? [scope] : [scope, body];
}

// The symbol that a reference to a name means, or null. `boundIn` gives what a scope binds to that name: symbols, of which only
// one is there in a program, but for the time in which two of them want it.
function lookUp(analysis, reference, boundIn) {
  const { rows, parents, report } = analysis;
  const around = headersAround(analysis, reference.node);
  const way = wayOf(analysis, reference);
  const isEither = EITHER.has(rows[parents[reference.node]][KIND]);
  for (let scope = reference.scope; scope !== null; scope = report.scopes[scope].parent) {
    const end = around.get(report.scopes[scope].node);
    const bound = askedAt(analysis, scope, end !== undefined).flatMap(boundIn);
    const seen = bound.filter((symbol) => end === undefined || firstNode(analysis, symbol) < end);
    const found = seen.find((symbol) => isEither || fits(way, symbol.flags));
    if (found !== undefined) {
      return found;
    }
  }
  return null;
}

module.exports = { firstNode, lookUp };
