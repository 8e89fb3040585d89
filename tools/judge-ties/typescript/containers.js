'use strict';
// What TypeScript binds where, by the rows of a program: crates/typescript_ties/specs, put into JavaScript by hand.

const { DEPTH, ROLE, KIND, START, TEXT, MARKS } = require('../../edits/rows');

const SIGNATURE = new Set(['TSTypeParameterDeclaration', 'TSThisParameter', 'FormalParameters', 'TSTypeAnnotation']);
const SIGNATURES = new Set(['TSFunctionType', 'TSConstructorType', 'TSCallSignatureDeclaration', 'TSConstructSignatureDeclaration', 'TSMethodSignature']);
const BLOCKS = new Set(['BlockStatement', 'ForStatement', 'ForInStatement', 'ForOfStatement']);
const TELLS_EXPORTS = new Set(['ExportNamedDeclaration', 'ExportFromDeclaration', 'ExportAllDeclaration', 'TSExportAssignment']);
const TAKES_VARS = new Set(['Body', 'StaticBlock', 'ModuleBlock', 'File']);

// The nodes of rows, each with its parent and children.
function nodesOf(rows) {
  const nodes = [];
  const open = [];
  rows.forEach((row, id) => {
    open.length = row[DEPTH];
    const parent = open[row[DEPTH] - 1];
    const node = { id, role: row[ROLE], kind: row[KIND], start: row[START], text: row[TEXT], marks: row[MARKS], parent, children: [] };
    if (parent) parent.children.push(node);
    open.push(node);
    nodes.push(node);
  });
  return nodes;
}

const child = (node, role) => node.children.find((one) => one.role === role);
const idText = (node) => (child(node, 'id') || { text: undefined }).text;
const isStatement = (node) => node.text === 'declaration' || node.text === 'ts-declare';
const own = (kind, node) => ({ kind, key: `${kind} ${node.id}`, path: `${node.id}`, node });

const memberOf = (kind, node, name, home) => {
  const path = `${home.path}\n${name}`;
  return { kind, key: `${kind} ${path}`, path, node };
};

const bound = (exported, containers) => (exported && containers.length > 1 && containers[0].kind === 'ModuleBlock' ? containers[1] : containers[0]);

function ambientAbove(node) {
  for (let above = node; above; above = above.parent) if (above.marks.includes('declare')) return true;
  return false;
}

const tellsExports = (statement) => {
  if (statement.kind !== 'ExportDefaultDeclaration') return TELLS_EXPORTS.has(statement.kind);
  const declaration = child(statement, 'declaration');
  return !(isStatement(declaration) || declaration.kind === 'TSInterfaceDeclaration');
};

// Whether what stands under the node is a member of the namespace around.
function isExported(node) {
  const above = node.parent;
  switch (above && above.kind) {
    case 'ExportDeclaration':
    case 'TSNamespaceDeclaration':
      return true;
    case 'TSModuleBlock':
      return ambientAbove(above) && !above.children.some((one) => one.role === 'body' && tellsExports(one));
    case 'VariableDeclaration':
      return isExported(above);
    default:
      return false;
  }
}

const parameters = (node, below) => [...(below.kind === 'TSTypeParameterDeclaration' ? [] : [own('Parameters', node)]), own('TypeParameters', node)];
const blockOf = (node, kind, name, home) => [own('ModuleBlock', node), name === undefined ? own(kind, node) : memberOf(kind, node, name, home)];

// What a node has round one of its children.
function made(node, outer, below) {
  if (BLOCKS.has(node.kind)) return [own('Block', node)];
  if (SIGNATURES.has(node.kind)) return node.kind === 'TSMethodSignature' && !SIGNATURE.has(below.kind) ? [] : parameters(node, below);
  switch (node.kind) {
    case 'Program':
      return [own('File', node)];
    case 'Function':
    case 'ArrowFunctionExpression':
      return [...(SIGNATURE.has(below.kind) ? [] : [own('Body', node)]), ...parameters(node, below), own('OwnName', node)];
    case 'Class':
      return below.kind === 'Decorator' ? [] : [own('TypeParameters', node), own('OwnName', node)];
    case 'TSInterfaceDeclaration':
    case 'TSTypeAliasDeclaration':
      return below.kind === 'BindingIdentifier' ? [] : [own('TypeParameters', node)];
    case 'TSMappedType':
      return [own('TypeParameters', node)];
    case 'TSIndexSignature':
      return [own('IndexSignature', node)];
    case 'TSConditionalType':
      return [own(below.role === 'true' ? 'Inferred' : 'Condition', node)];
    case 'TSInferType':
      return [own('Infer', node)];
    case 'StaticBlock':
      return [own('StaticBlock', node)];
    case 'CatchClause':
      return [own('CatchClause', node)];
    case 'SwitchStatement':
      return below.kind === 'SwitchCase' ? [own('Block', node)] : [];
    case 'TSNamespaceDeclaration':
      return below.kind === 'BindingIdentifier' ? [] : blockOf(node, 'NamespaceMembers', idText(node), bound(isExported(node), outer));
    case 'TSExternalModuleDeclaration':
      return below.kind === 'TSModuleBlock' ? blockOf(node, 'ModuleMembers', `'${idText(node)}`, bound(false, outer)) : [];
    case 'TSGlobalDeclaration':
      return [own('ModuleBlock', node), { kind: 'GlobalMembers', key: 'GlobalMembers', path: '', node }];
    case 'TSEnumBody':
      return [memberOf('EnumMembers', node, idText(node.parent), bound(isExported(node.parent), outer))];
    default:
      return [];
  }
}

const GLOBALS = { kind: 'Globals', key: 'Globals', path: '', node: undefined };

function containersOf(node) {
  if (node.round === undefined) {
    const above = node.parent;
    if (above === undefined) node.round = [GLOBALS];
    else if (above.kind.startsWith('FormalParameter') && node.kind === 'Decorator') {
      const outer = containersOf(above);
      node.round = outer.filter((one) => one.node !== outer[0].node);
    } else node.round = [...made(above, containersOf(above), node), ...containersOf(above)];
  }
  return node.round;
}

module.exports = { nodesOf, child, idText, isStatement, own, bound, isExported, containersOf, GLOBALS, TAKES_VARS };
