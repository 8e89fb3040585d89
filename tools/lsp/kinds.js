'use strict';
// What kinds of symbols there are, by the node that declares one and by the symbol's flags.

const { KIND, TEXT } = require('../edits/rows.js');

// Numbers of the protocol for the outline.
const OUTLINE = {
  module: 2, namespace: 3, class: 5, method: 6, property: 7, constructor: 9, enum: 10, interface: 11, function: 12, variable: 13,
  constant: 14, member: 22, typeParameter: 26,
};

const row = (word, outline) => ({ word, outline });

// By the kind of the declaring node; `outline` is null for what an outline leaves out.
const NODES = {
  FormalParameter: row('parameter', null),
  FormalParameterRest: row('rest parameter', null),
  CatchParameter: row('parameter of catch', null),
  Function: row('function', OUTLINE.function),
  Class: row('class', OUTLINE.class),
  ImportSpecifier: row('import', OUTLINE.module),
  ImportDefaultSpecifier: row('default import', OUTLINE.module),
  ImportNamespaceSpecifier: row('import of a namespace', OUTLINE.module),
  TSImportEqualsDeclaration: row('import', OUTLINE.module),
  TSTypeParameter: row('type parameter', null),
  TSMappedType: row('type parameter', null),
  TSTypeAliasDeclaration: row('type', OUTLINE.interface),
  TSInterfaceDeclaration: row('interface', OUTLINE.interface),
  TSEnumDeclaration: row('enum', OUTLINE.enum),
  TSEnumMember: row('member of an enum', OUTLINE.member),
  TSNamespaceDeclaration: row('namespace', OUTLINE.namespace),
  TSExternalModuleDeclaration: row('module', OUTLINE.module),
};

const VARIABLE = row('variable', OUTLINE.variable);

// A variable by the word that declares it.
function variableWord({ rows, parents }, node) {
  const above = parents[node] < 0 ? null : rows[parents[node]];
  return above !== null && above[KIND] === 'VariableDeclaration' ? `${VARIABLE.word} by ${above[TEXT]}` : VARIABLE.word;
}

function kindWord(analysed, { node }) {
  const known = NODES[analysed.rows[node][KIND]];
  return known === undefined ? variableWord(analysed, node) : known.word;
}

// The outline's number of a symbol, or null.
function outlineKind(analysed, { node, flags }) {
  const known = NODES[analysed.rows[node][KIND]];
  if (known !== undefined) {
    return known.outline;
  }
  return flags.includes('ConstVariable') ? OUTLINE.constant : OUTLINE.variable;
}

// What opens a scope, by the kind of its node.
const SCOPES = {
  ArrowFunctionExpression: 'arrow function',
  BlockStatement: 'block',
  CatchClause: 'catch clause',
  Class: 'class',
  ForInStatement: 'for-in loop',
  ForOfStatement: 'for-of loop',
  ForStatement: 'for loop',
  Function: 'function',
  StaticBlock: 'static block',
  SwitchStatement: 'switch',
  TSEnumBody: 'enum',
  TSInterfaceDeclaration: 'interface',
  TSModuleBlock: 'namespace',
  TSNamespaceDeclaration: 'namespace',
  TSTypeAliasDeclaration: 'type',
  WithStatement: 'with statement',
};

const scopeWord = (kind) => SCOPES[kind] ?? 'scope';

module.exports = { OUTLINE, kindWord, outlineKind, scopeWord };
