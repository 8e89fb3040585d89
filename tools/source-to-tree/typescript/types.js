'use strict';
// Types and the members of interfaces.

const { Refusal } = require('../refusal');
const { skipTrivia, nameEnd, closingEnd } = require('../trivia');
const { visit, each, plain, byKind, marksOf } = require('./visit');
const { modifierMarks } = require('./modifiers');
const { isComputed } = require('./patterns');

// An annotation is as long as its type.
visit.typeAnnotation = (c, role, node) => {
  c.open(role, 'TSTypeAnnotation', node);
  visit.type(c, 'element', node);
  c.close();
};

function bracketed(kind, name, mayBeEmpty) {
  return (c, role, list) => {
    if (list.length === 0 && !mayBeEmpty) throw new Refusal('Type parameter list cannot be empty.', list.pos - 1);
    c.openAt(role, kind, list.pos - 1, closingEnd(c.text, list.end, '>'));
    each(c, 'params', list, name);
    c.close();
  };
}
visit.typeParameters = bracketed('TSTypeParameterDeclaration', 'typeParameter', false);
visit.typeArguments = bracketed('TSTypeParameterInstantiation', 'type', true);

visit.typeParameter = (c, role, node) => {
  c.open(role, 'TSTypeParameter', node, '', modifierMarks(c, node, ['const', 'in', 'out']));
  visit.bindingName(c, 'name', node.name);
  each(c, 'constraint', node.constraint, 'type');
  each(c, 'default', node.default, 'type');
  c.close();
};

function withSignature(kind, allowed = []) {
  return (c, role, node) => {
    c.openMember(role, kind, node, '', modifierMarks(c, node, allowed));
    visit.signature(c, node, 'signature');
    c.close();
  };
}

function methodSignature(kind) {
  return (c, role, node) => {
    modifierMarks(c, node, []);
    const marks = marksOf({ computed: isComputed(c, node.name), optional: node.questionToken });
    c.openMember(role, 'TSMethodSignature', node, kind, marks);
    visit.key(c, 'key', node.name);
    visit.signature(c, node, 'signature');
    c.close();
  };
}

function propertySignature(c, role, node) {
  if (node.initializer) c.refuse(node.initializer, 'An interface property cannot have an initializer.');
  const marks = modifierMarks(c, node, ['readonly']);
  if (isComputed(c, node.name)) marks.push('computed');
  if (node.questionToken) marks.push('optional');
  c.openMember(role, 'TSPropertySignature', node, '', marks);
  visit.key(c, 'key', node.name);
  each(c, 'type', node.type, 'typeAnnotation');
  c.close();
}

function indexName(c, role, node) {
  const isPlain = node.name.kind === c.kinds.Identifier && !node.dotDotDotToken && !node.questionToken && !node.initializer;
  if (!isPlain || !node.type) c.refuse(node, 'An index signature parameter must have a name and a type annotation alone.');
  c.open(role, 'TSIndexSignatureName', node, c.ts.idText(node.name));
  visit.typeAnnotation(c, 'type', node.type);
  c.close();
}

visit.indexSignature = (c, role, node) => {
  if (!node.type) c.refuse(node, 'An index signature must have a type annotation.');
  if (node.parameters.length === 0) c.refuse(node, 'An index signature must have exactly one parameter.');
  c.openMember(role, 'TSIndexSignature', node, '', modifierMarks(c, node, ['static', 'readonly']));
  for (const parameter of node.parameters) indexName(c, 'parameters', parameter);
  visit.typeAnnotation(c, 'type', node.type);
  c.close();
};

visit.typeMember = byKind({
  CallSignature: withSignature('TSCallSignatureDeclaration'),
  ConstructSignature: withSignature('TSConstructSignatureDeclaration'),
  PropertySignature: propertySignature,
  MethodSignature: methodSignature('method'),
  GetAccessor: methodSignature('get'),
  SetAccessor: methodSignature('set'),
  IndexSignature: visit.indexSignature,
}, 'a member of a type');

const keyword = (kind) => (c, role, node) => c.leaf(role, kind, node);

function named(kind, field) {
  return (c, role, node) => {
    c.open(role, kind, node);
    visit.entity(c, 'name', node[field]);
    each(c, 'typeArguments', node.typeArguments && [node.typeArguments], 'typeArguments');
    c.close();
  };
}

function importQualifier(c, role, node) {
  if (node.kind === c.kinds.Identifier) return visit.name(c, role, node);
  c.open(role, 'TSImportTypeQualifiedName', node);
  importQualifier(c, 'left', node.left);
  visit.name(c, 'right', node.right);
  c.close();
}

function importOption(c, node) {
  c.open('properties', 'ObjectProperty', node, 'init');
  visit.moduleName(c, 'key', node.name);
  visit.expression(c, 'value', node.value);
  c.close();
}

// The options of an import are an object with an object of attributes, of which the compiler has a node for the inner alone.
function importOptions(c, clause, from) {
  const outer = skipTrivia(c.text, skipTrivia(c.text, from) + 1);
  const word = skipTrivia(c.text, outer + 1);
  const wordEnd = nameEnd(c.text, word);
  c.openAt('options', 'ObjectExpression', outer, closingEnd(c.text, clause.end, '}'));
  c.openAt('properties', 'ObjectProperty', word, clause.end, 'init');
  c.leafAt('key', 'IdentifierName', word, wordEnd, c.text.slice(word, wordEnd));
  c.open('value', 'ObjectExpression', clause);
  for (const element of clause.elements) importOption(c, element);
  c.close();
  c.close();
  c.close();
}

function importType(c, role, node, start = c.start(node)) {
  const { literal } = node.argument;
  if (!literal || literal.kind !== c.kinds.StringLiteral) c.refuse(node.argument, 'String literal expected.');
  c.openAt(role, 'TSImportType', start, node.end);
  visit.string(c, 'argument', literal);
  const clause = node.attributes || (node.assertions && node.assertions.assertClause);
  if (clause) importOptions(c, clause, node.argument.end);
  if (node.qualifier) importQualifier(c, 'qualifier', node.qualifier);
  each(c, 'typeArguments', node.typeArguments && [node.typeArguments], 'typeArguments');
  c.close();
}

// `typeof import(..)` is a query of an import.
function importOrQuery(c, role, node) {
  if (!node.isTypeOf) return importType(c, role, node);
  c.open(role, 'TSTypeQuery', node);
  importType(c, 'name', node, c.text.indexOf('import', c.start(node) + 'typeof'.length));
  c.close();
}

function literalType(c, role, node) {
  if (node.literal.kind === c.kinds.NullKeyword) return c.leaf(role, 'TSNullKeyword', node);
  c.open(role, 'TSLiteralType', node);
  visit.expression(c, 'literal', node.literal);
  c.close();
}

const adds = (token, c) => token !== undefined && token.kind !== c.kinds.MinusToken;

function mappedType(c, role, node) {
  const { name, constraint } = node.typeParameter;
  if (node.members && node.members.length > 0) c.refuse(node.members[0], 'A mapped type may not declare properties or methods.');
  const marks = marksOf({ optional: adds(node.questionToken, c), readonly: adds(node.readonlyToken, c) });
  c.open(role, 'TSMappedType', node, '', marks);
  visit.bindingName(c, 'key', name);
  visit.type(c, 'constraint', constraint);
  each(c, 'nameType', node.nameType, 'type');
  each(c, 'valueType', node.type, 'type');
  c.close();
}

function templateType(c, role, node) {
  c.open(role, 'TSTemplateLiteralType', node);
  for (const span of visit.templateParts(c, node)) visit.type(c, 'types', span.type);
  c.close();
}

function namedMember(c, role, node, start) {
  c.openAt(role, 'TSNamedTupleMember', start, node.end, '', marksOf({ optional: node.questionToken }));
  visit.name(c, 'label', node.name);
  visit.type(c, 'element', node.type);
  c.close();
}

function namedOrRest(c, role, node) {
  if (!node.dotDotDotToken) return namedMember(c, role, node, c.start(node));
  c.open(role, 'TSRestType', node);
  namedMember(c, 'element', node, c.start(node.name));
  c.close();
}

function typeOperator(c, role, node) {
  c.open(role, 'TSTypeOperator', node, c.ts.tokenToString(node.operator));
  visit.type(c, 'element', node.type);
  c.close();
}

function typePredicate(c, role, node) {
  c.open(role, 'TSTypePredicate', node, '', marksOf({ asserts: node.assertsModifier }));
  if (node.parameterName.kind === c.kinds.Identifier) visit.name(c, 'name', node.parameterName);
  else c.leaf('name', 'TSThisType', node.parameterName);
  each(c, 'type', node.type, 'typeAnnotation');
  c.close();
}

function jsDocType(kind, sign) {
  return (c, role, node) => {
    c.open(role, kind, node, '', marksOf({ postfix: c.text[c.start(node)] !== sign }));
    visit.type(c, 'element', node.type);
    c.close();
  };
}

const KEYWORDS = ['Any', 'BigInt', 'Boolean', 'Intrinsic', 'Never', 'Number', 'Object', 'String', 'Symbol', 'Undefined', 'Unknown', 'Void'];

const TYPES = {
  ...Object.fromEntries(KEYWORDS.map((name) => [`${name}Keyword`, keyword(`TS${name}Keyword`)])),
  ThisType: keyword('TSThisType'),
  JSDocUnknownType: keyword('JSDocUnknownType'),
  ArrayType: plain('TSArrayType', ['element', 'elementType', 'type']),
  ParenthesizedType: plain('TSParenthesizedType', ['element', 'type', 'type']),
  ConditionalType: plain('TSConditionalType', ['check', 'checkType', 'type'], ['extends', 'extendsType', 'type'],
    ['true', 'trueType', 'type'], ['false', 'falseType', 'type']),
  ConstructorType: withSignature('TSConstructorType', ['abstract']),
  FunctionType: withSignature('TSFunctionType'),
  ImportType: importOrQuery,
  IndexedAccessType: plain('TSIndexedAccessType', ['object', 'objectType', 'type'], ['index', 'indexType', 'type']),
  InferType: plain('TSInferType', ['parameter', 'typeParameter', 'typeParameter']),
  IntersectionType: plain('TSIntersectionType', ['types', 'types', 'type']),
  UnionType: plain('TSUnionType', ['types', 'types', 'type']),
  LiteralType: literalType,
  MappedType: mappedType,
  TemplateLiteralType: templateType,
  TupleType: plain('TSTupleType', ['elements', 'elements', 'tupleItem']),
  TypeLiteral: plain('TSTypeLiteral', ['members', 'members', 'typeMember']),
  TypeOperator: typeOperator,
  TypePredicate: typePredicate,
  TypeQuery: named('TSTypeQuery', 'exprName'),
  TypeReference: named('TSTypeReference', 'typeName'),
  ExpressionWithTypeArguments: named('TSTypeReference', 'expression'),
  JSDocNullableType: jsDocType('JSDocNullableType', '?'),
  JSDocNonNullableType: jsDocType('JSDocNonNullableType', '!'),
};
visit.type = byKind(TYPES, 'a type');

const TUPLE_ITEMS = {
  NamedTupleMember: namedOrRest,
  OptionalType: plain('TSOptionalType', ['element', 'type', 'type']),
  RestType: plain('TSRestType', ['element', 'type', 'type']),
};
const tupleItem = byKind(TUPLE_ITEMS, 'an element of a tuple');
visit.tupleItem = (c, role, node) => (c.kindName(node) in TUPLE_ITEMS ? tupleItem : visit.type)(c, role, node);
