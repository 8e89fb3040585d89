'use strict';
// Types and the members of interfaces, as typescript-eslint and Babel give them.

const { skipTrivia, withoutSeparator, afterWords } = require('../trivia');
const { visit, each, plain, byType, marksOf } = require('./visit');

const typeArgumentsOf = (node) => node.typeArguments || node.typeParameters;
const typeArguments = (c, node) => each(c, 'typeArguments', typeArgumentsOf(node), 'typeArguments');

// An annotation is as long as its type.
visit.typeAnnotation = (c, role, node) => {
  const type = node.type === 'TSTypeAnnotation' ? node.typeAnnotation : node;
  c.open(role, 'TSTypeAnnotation', type);
  visit.type(c, 'element', type);
  c.close();
};

visit.typeParameters = plain('TSTypeParameterDeclaration', { params: 'typeParameter' });
visit.typeArguments = plain('TSTypeParameterInstantiation', { params: 'type' });

// Babel gives the name of a type parameter as a text.
visit.typeParameter = (c, role, node) => {
  c.open(role, 'TSTypeParameter', node, '', marksOf({ const: node.const, in: node.in, out: node.out }));
  if (typeof node.name === 'string') bareName(c, node);
  else visit.bindingName(c, 'name', node.name);
  each(c, 'constraint', node.constraint, 'type');
  each(c, 'default', node.default, 'type');
  c.close();
};

function bareName(c, node) {
  const start = afterWords(c.text, c.start(node), /^(?:const|in|out)$/);
  c.leafAt('name', 'BindingIdentifier', start, start + node.name.length, node.name);
}

function qualified(left, right) {
  return (c, role, node) => {
    c.open(role, 'TSQualifiedName', node);
    visit.entity(c, 'left', node[left]);
    visit.name(c, 'right', node[right]);
    c.close();
  };
}
visit.entity = byType({
  Identifier: (c, role, node) => (node.name === 'this' ? c.leaf(role, 'ThisExpression', node) : visit.reference(c, role, node)),
  ThisExpression: (c, role, node) => c.leaf(role, 'ThisExpression', node),
  TSQualifiedName: qualified('left', 'right'),
  MemberExpression: qualified('object', 'property'),
  TSImportType: (c, role, node) => importType(c, role, node),
}, 'the name of a type');

// A member of a type, without the mark that parts it from the next.
function openMember(c, role, kind, node, text, marks) {
  c.openAt(role, kind, c.start(node), withoutSeparator(c.text, c.end(node)), text, marks);
}

// Where the list of parameters of a member begins: behind its key and the mark of an optional one.
function afterKey(c, node) {
  if (node.typeParameters) return c.end(node.typeParameters);
  let at = skipTrivia(c.text, c.end(node.key));
  if (node.computed) at = skipTrivia(c.text, at + 1);
  return c.text[at] === '?' ? at + 1 : at;
}

function withSignature(kind, marks = () => []) {
  return (c, role, node) => {
    openMember(c, role, kind, node, '', marks(node));
    visit.signature(c, node, 'signature');
    c.close();
  };
}

visit.indexSignature = (c, role, node) => {
  openMember(c, role, 'TSIndexSignature', node, '', marksOf({ static: node.static, readonly: node.readonly }));
  for (const name of node.parameters) {
    c.open('parameters', 'TSIndexSignatureName', name, name.name);
    visit.typeAnnotation(c, 'type', name.typeAnnotation);
    c.close();
  }
  visit.typeAnnotation(c, 'type', node.typeAnnotation);
  c.close();
};

visit.typeMember = byType({
  TSCallSignatureDeclaration: withSignature('TSCallSignatureDeclaration'),
  TSConstructSignatureDeclaration: withSignature('TSConstructSignatureDeclaration'),
  TSIndexSignature: visit.indexSignature,
  TSPropertySignature(c, role, node) {
    const { computed, optional, readonly } = node;
    openMember(c, role, 'TSPropertySignature', node, '', marksOf({ computed, optional, readonly }));
    visit.key(c, 'key', node.key, computed);
    each(c, 'type', node.typeAnnotation, 'typeAnnotation');
    c.close();
  },
  TSMethodSignature(c, role, node) {
    const { computed, optional } = node;
    openMember(c, role, 'TSMethodSignature', node, node.kind || 'method', marksOf({ computed, optional }));
    visit.key(c, 'key', node.key, computed);
    visit.signature(c, node, 'signature', afterKey(c, node));
    c.close();
  },
}, 'a member of a type');

const KEYWORDS = ['Any', 'BigInt', 'Boolean', 'Intrinsic', 'Never', 'Null', 'Number', 'Object', 'String', 'Symbol', 'Undefined', 'Unknown', 'Void'];

function importQualifier(c, role, node) {
  if (node.type === 'Identifier') return visit.name(c, role, node);
  c.open(role, 'TSImportTypeQualifiedName', node);
  importQualifier(c, 'left', node.left);
  visit.name(c, 'right', node.right);
  c.close();
}

function importType(c, role, node) {
  const argument = node.source || node.argument;
  c.open(role, 'TSImportType', node);
  visit.literal(c, 'argument', argument.type === 'TSLiteralType' ? argument.literal : argument);
  each(c, 'options', node.options, 'object');
  if (node.qualifier) importQualifier(c, 'qualifier', node.qualifier);
  typeArguments(c, node);
  c.close();
}

function named(kind, ...fields) {
  return (c, role, node) => {
    c.open(role, kind, node);
    visit.entity(c, 'name', node[fields.find((field) => node[field])]);
    typeArguments(c, node);
    c.close();
  };
}

const adds = (value) => value === true || value === '+';

function mappedType(c, role, node) {
  const { typeParameter } = node;
  c.open(role, 'TSMappedType', node, '', marksOf({ optional: adds(node.optional), readonly: adds(node.readonly) }));
  if (typeParameter && typeof typeParameter.name === 'string') {
    const start = c.start(typeParameter);
    c.leafAt('key', 'BindingIdentifier', start, start + typeParameter.name.length, typeParameter.name);
  } else {
    visit.bindingName(c, 'key', typeParameter ? typeParameter.name : node.key);
  }
  visit.type(c, 'constraint', typeParameter ? typeParameter.constraint : node.constraint);
  each(c, 'nameType', node.nameType, 'type');
  each(c, 'valueType', node.typeAnnotation, 'type');
  c.close();
}

// A literal that is a template with types is a type of its own.
function literalType(c, role, node) {
  const { literal } = node;
  if (literal.type === 'TemplateLiteral' && literal.expressions.length > 0) return templateType(c, role, literal);
  c.open(role, 'TSLiteralType', node);
  visit.expression(c, 'literal', literal);
  c.close();
}

function templateType(c, role, node) {
  if (node.quasis.length === 1) {
    c.open(role, 'TSLiteralType', node);
    c.open('literal', 'TemplateLiteral', node);
    each(c, 'quasis', node.quasis, 'templateElement');
    c.close();
  } else {
    c.open(role, 'TSTemplateLiteralType', node);
    each(c, 'quasis', node.quasis, 'templateElement');
    each(c, 'types', node.types || node.expressions, 'type');
  }
  c.close();
}

function predicate(c, role, node) {
  c.open(role, 'TSTypePredicate', node, '', marksOf({ asserts: node.asserts }));
  if (node.parameterName.type === 'Identifier') visit.name(c, 'name', node.parameterName);
  else c.leaf('name', 'TSThisType', node.parameterName);
  each(c, 'type', node.typeAnnotation, 'typeAnnotation');
  c.close();
}

function operator(c, role, node) {
  c.open(role, 'TSTypeOperator', node, node.operator);
  visit.type(c, 'element', node.typeAnnotation);
  c.close();
}

// A kind whose one child has a name of its own in each dialect.
function over(kind, role, name, ...fields) {
  return (c, outer, node) => {
    c.open(outer, kind, node);
    visit[name](c, role, node[fields.find((field) => node[field])]);
    c.close();
  };
}

const TYPES = {
  ...Object.fromEntries(KEYWORDS.map((name) => [`TS${name}Keyword`, plain(`TS${name}Keyword`)])),
  TSThisType: plain('TSThisType'),
  TSArrayType: over('TSArrayType', 'element', 'type', 'elementType'),
  TSParenthesizedType: over('TSParenthesizedType', 'element', 'type', 'typeAnnotation'),
  TSConditionalType(c, role, node) {
    c.open(role, 'TSConditionalType', node);
    for (const part of ['check', 'extends', 'true', 'false']) visit.type(c, part, node[`${part}Type`]);
    c.close();
  },
  TSConstructorType: withSignature('TSConstructorType', (node) => marksOf({ abstract: node.abstract })),
  TSFunctionType: withSignature('TSFunctionType'),
  TSImportType: importType,
  TSIndexedAccessType(c, role, node) {
    c.open(role, 'TSIndexedAccessType', node);
    visit.type(c, 'object', node.objectType);
    visit.type(c, 'index', node.indexType);
    c.close();
  },
  TSInferType: over('TSInferType', 'parameter', 'typeParameter', 'typeParameter'),
  TSIntersectionType: plain('TSIntersectionType', { types: 'type' }),
  TSUnionType: plain('TSUnionType', { types: 'type' }),
  TSLiteralType: literalType,
  TSMappedType: mappedType,
  TSTemplateLiteralType: templateType,
  TSTupleType(c, role, node) {
    c.open(role, 'TSTupleType', node);
    each(c, 'elements', node.elementTypes || node.elements, 'tupleItem');
    c.close();
  },
  TSTypeLiteral: plain('TSTypeLiteral', { members: 'typeMember' }),
  TSTypeOperator: operator,
  TSTypePredicate: predicate,
  TSTypeQuery: named('TSTypeQuery', 'exprName'),
  TSTypeReference: named('TSTypeReference', 'typeName'),
};
visit.type = byType(TYPES, 'a type');

function namedMember(c, role, node) {
  c.open(role, 'TSNamedTupleMember', node, '', marksOf({ optional: node.optional }));
  visit.name(c, 'label', node.label);
  visit.type(c, 'element', node.elementType);
  c.close();
}
const TUPLE_ITEMS = {
  TSNamedTupleMember: namedMember,
  TSOptionalType: over('TSOptionalType', 'element', 'type', 'typeAnnotation'),
  TSRestType(c, role, node) {
    c.open(role, 'TSRestType', node);
    visit.tupleItem(c, 'element', node.typeAnnotation);
    c.close();
  },
};
visit.tupleItem = (c, role, node) => (TUPLE_ITEMS[node.type] || visit.type)(c, role, node);

visit.implements = named('TSClassImplements', 'expression');
visit.interfaceHeritage = named('TSInterfaceHeritage', 'expression');
