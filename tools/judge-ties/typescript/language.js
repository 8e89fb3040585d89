'use strict';
// What the names of a program mean in TypeScript, by crates/typescript_ties/specs.

const { nodesOf, child, isStatement, own, bound, isExported, containersOf, GLOBALS, TAKES_VARS } = require('./containers');

const BINDS_BELOW = {
  VariableDeclaration: ['declarators'],
  FormalParameters: ['items', 'rest'],
  FormalParameter: ['pattern'],
  FormalParameterRest: ['rest'],
  CatchParameter: ['pattern'],
  BindingRestElement: ['argument'],
  ObjectPattern: ['properties', 'rest'],
  BindingProperty: ['value'],
  ArrayPattern: ['elements', 'rest'],
  AssignmentPattern: ['left'],
};

const [VALUE, TYPE, NAMESPACE] = [1, 2, 4];
const ANY = VALUE + TYPE + NAMESPACE;
const MEANINGS = {
  Class: VALUE + TYPE,
  ClassName: VALUE + TYPE,
  Import: ANY,
  TypeAlias: TYPE,
  Interface: TYPE,
  Enum: ANY,
  EnumMember: VALUE + TYPE,
  TypeParameter: TYPE,
  Inferred: TYPE,
  TypeNamespace: NAMESPACE,
  ValueNamespace: VALUE + NAMESPACE,
};

// The binding identifiers of a node.
function boundNames(node) {
  if (node.kind === 'BindingIdentifier') return [node];
  const roles = BINDS_BELOW[node.kind] || ['id'];
  return node.children.filter(({ role }) => roles.includes(role)).flatMap(boundNames);
}

const namesAt = (node, role) => node.children.filter((one) => one.role === role).flatMap(boundNames);
const strictBy = ({ kind, children }) => kind === 'Class' || (kind === 'Program' && children.some((one) => one.kind === 'Directive' && one.text === 'use strict'));

function isStrict(node, isModule) {
  for (let above = node.parent; above; above = above.parent) {
    const body = child(above, 'body');
    if (strictBy(above) || (body && /Function|TS(Namespace|ExternalModule|Global)Declaration/.test(above.kind) && strictBy({ ...body, kind: 'Program' }))) return true;
  }
  return isModule;
}

// Whether a namespace has more than types, where it has no list of exports.
function hasValues(node) {
  const inner = node.kind.startsWith('Export') ? child(node, 'declaration') : node;
  switch (inner.kind) {
    case 'TSInterfaceDeclaration':
    case 'TSTypeAliasDeclaration':
      return false;
    case 'TSImportEqualsDeclaration':
      return inner !== node;
    case 'TSNamespaceDeclaration': {
      const body = child(inner, 'body');
      return body.kind === 'TSNamespaceDeclaration' ? hasValues(body) : body.children.filter(({ role }) => role === 'body').some(hasValues);
    }
    default:
      return true;
  }
}

const firstCondition = (containers) => {
  const found = containers.find(({ kind }) => kind === 'Condition');
  return found ? own('Inferred', found.node) : GLOBALS;
};

// The names that a node declares.
function declaredBy(node, isModule) {
  const round = containersOf(node);
  const exported = isExported(node);
  const named = (sort, names, container, also = []) =>
    names.map(({ id, text, start }) => ({ sort, id, name: text, start, keys: [container.key, ...(container.kind === 'GlobalMembers' ? [GLOBALS.key] : []), ...also] }));
  const here = (sort, names) => named(sort, names, bound(exported, round));
  const outward = (sort, names) => named(sort, names, bound(exported, round.slice(Math.max(0, round.findIndex(({ kind }) => TAKES_VARS.has(kind))))));
  const imported = (names) => named('Import', names, bound(node.parent.kind === 'ExportDeclaration', round));
  switch (node.kind) {
    case 'VariableDeclarator':
      return node.parent.text === 'var' ? outward('Var', boundNames(node)) : here('Lexical', boundNames(node));
    case 'Function': {
      const names = namesAt(node, 'id');
      if (!isStatement(node)) return named('FunctionName', names, own('OwnName', node));
      return isStrict(node, isModule) || TAKES_VARS.has(round[0].kind) ? here('Function', names) : outward('BlockFunction', names);
    }
    case 'Class':
      return isStatement(node) ? here('Class', namesAt(node, 'id')) : named('ClassName', namesAt(node, 'id'), own('OwnName', node));
    case 'FormalParameter':
    case 'FormalParameterRest':
      return named('Parameter', boundNames(node), round[0]);
    case 'TSIndexSignatureName':
      return named('IndexParameter', [node], round[0]);
    case 'CatchParameter':
      return named('CatchName', namesAt(node, 'pattern'), round[0]);
    case 'ImportSpecifier':
    case 'ImportDefaultSpecifier':
    case 'ImportNamespaceSpecifier':
      return imported(namesAt(node, 'local'));
    case 'TSImportEqualsDeclaration':
      return imported(namesAt(node, 'id'));
    case 'TSTypeAliasDeclaration':
      return here('TypeAlias', namesAt(node, 'id'));
    case 'TSInterfaceDeclaration':
      return here('Interface', namesAt(node, 'id'));
    case 'TSEnumDeclaration':
      return here('Enum', namesAt(node, 'id'));
    case 'TSEnumMember':
      return named('EnumMember', [{ id: node.id, text: child(node, 'id').text, start: child(node, 'id').start }], round[0]);
    case 'TSNamespaceDeclaration':
      return here(hasValues(node) ? 'ValueNamespace' : 'TypeNamespace', namesAt(node, 'id'));
    case 'TSTypeParameter':
      return node.parent.kind === 'TSInferType'
        ? named('Inferred', namesAt(node, 'name'), firstCondition(round), [round[0].key])
        : named('TypeParameter', namesAt(node, 'name'), round[0]);
    case 'TSMappedType':
      return named('TypeParameter', namesAt(node, 'key'), own('TypeParameters', node));
    default:
      return [];
  }
}

function leftOf(node) {
  if (node.kind === 'TSQualifiedName') return leftOf(node.parent);
  return node.kind === 'TSTypeQuery' ? VALUE : NAMESPACE;
}

// What a reference asks for.
function askedBy({ parent }) {
  switch (parent.kind) {
    case 'TSTypeReference':
    case 'TSInterfaceHeritage':
    case 'TSClassImplements':
      return TYPE;
    case 'TSQualifiedName':
      return leftOf(parent.parent);
    case 'TSImportEqualsDeclaration':
      return NAMESPACE;
    case 'ExportSpecifier':
    case 'ExportDefaultDeclaration':
    case 'TSExportAssignment':
      return ANY;
    default:
      return VALUE;
  }
}

// For each identifier reference, the declarations that it means.
function meaningsOf(rows, isModule) {
  const nodes = nodesOf(rows);
  const declared = new Map();
  for (const one of nodes.flatMap((node) => declaredBy(node, isModule))) {
    for (const key of one.keys) {
      const at = `${key}\n${one.name}`;
      declared.set(at, [...(declared.get(at) || []), one]);
    }
  }
  return nodes
    .filter(({ kind }) => kind === 'IdentifierReference')
    .map((node) => {
      const all = containersOf(node).map(({ key }) => declared.get(`${key}\n${node.text}`) || []);
      const found = all.find((list) => list.some(({ sort }) => (MEANINGS[sort] || VALUE) & askedBy(node)));
      return { name: node.text, start: node.start, declarations: found || [] };
    });
}

module.exports = { meaningsOf };
