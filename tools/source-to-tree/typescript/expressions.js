'use strict';
// Expressions.

const { visit, each, plain, byKind, marksOf } = require('./visit');
const { modifierMarks } = require('./modifiers');
const { isComputed } = require('./patterns');
const { LITERALS } = require('./literals');

visit.spread = plain('SpreadElement', ['argument', 'expression', 'expression']);
visit.argument = (c, role, node) => visit[node.kind === c.kinds.SpreadElement ? 'spread' : 'expression'](c, role, node);

function array(c, role, node) {
  c.open(role, 'ArrayExpression', node);
  for (const element of node.elements) {
    if (element.kind !== c.kinds.OmittedExpression) visit.argument(c, 'elements', element);
    else c.leafAt('elements', 'Elision', c.start(element), c.start(element));
  }
  c.close();
}

function objectMember(c, role, node, { kind = 'init', more = {}, allowed = [] }) {
  const words = modifierMarks(c, node, allowed);
  c.open(role, 'ObjectProperty', node, kind, marksOf({ ...more, computed: isComputed(c, node.name) }));
  visit.key(c, 'key', node.name);
  return words;
}

const accessor = (kind) => (c, role, node) => {
  if (!node.body) c.refuse(node, "'{' expected.");
  objectMember(c, role, node, { kind });
  visit.methodValue(c, 'value', node, false);
  c.close();
};

visit.objectProperty = byKind({
  PropertyAssignment(c, role, node) {
    objectMember(c, role, node, {});
    visit.expression(c, 'value', node.initializer);
    c.close();
  },
  ShorthandPropertyAssignment(c, role, node) {
    if (node.objectAssignmentInitializer) c.refuse(node, 'A shorthand property with a default stands in patterns only.');
    objectMember(c, role, node, { more: { shorthand: true } });
    visit.reference(c, 'value', node.name);
    c.close();
  },
  SpreadAssignment: visit.spread,
  MethodDeclaration(c, role, node) {
    if (!node.body) c.refuse(node, "'{' expected.");
    const words = objectMember(c, role, node, { more: { method: true }, allowed: ['async'] });
    visit.methodValue(c, 'value', node, words.includes('async'));
    c.close();
  },
  GetAccessor: accessor('get'),
  SetAccessor: accessor('set'),
}, 'a member of an object');

// What a node stands on, such as a call or member expression: where it is a link of a chain, the chain goes on there.
function base(c, role, outer) {
  const node = outer.expression;
  if (node.kind === c.kinds.SuperKeyword) c.leaf(role, 'Super', node);
  else if (c.isChain(node) && c.isChain(outer)) link(c, role, node);
  else visit.expression(c, role, node);
}

function importCall(c, role, node) {
  const [argument, options, third] = node.arguments;
  if (!argument || third) c.refuse(node, 'Dynamic import takes a specifier and, after it, an optional object.');
  c.open(role, 'ImportExpression', node);
  visit.expression(c, 'argument', argument);
  each(c, 'options', options, 'expression');
  c.close();
}

function call(c, role, node) {
  if (node.expression.kind === c.kinds.ImportKeyword) return importCall(c, role, node);
  const pure = c.annotations.takesPure(c.start(node));
  c.open(role, 'CallExpression', node, '', marksOf({ optional: node.questionDotToken, pure }));
  base(c, 'callee', node);
  each(c, 'typeArguments', node.typeArguments && [node.typeArguments], 'typeArguments');
  each(c, 'arguments', node.arguments, 'argument');
  c.close();
}

function construct(c, role, node) {
  c.open(role, 'NewExpression', node, '', marksOf({ pure: c.annotations.takesPure(c.start(node)) }));
  base(c, 'callee', node);
  each(c, 'typeArguments', node.typeArguments && [node.typeArguments], 'typeArguments');
  each(c, 'arguments', node.arguments, 'argument');
  c.close();
}

function propertyAccess(c, role, node) {
  const isPrivate = node.name.kind === c.kinds.PrivateIdentifier;
  const kind = isPrivate ? 'PrivateFieldExpression' : 'StaticMemberExpression';
  c.open(role, kind, node, '', marksOf({ optional: node.questionDotToken }));
  base(c, 'object', node);
  if (isPrivate) visit.privateName(c, 'field', node.name);
  else visit.name(c, 'property', node.name);
  c.close();
}

function elementAccess(c, role, node) {
  c.open(role, 'ComputedMemberExpression', node, '', marksOf({ optional: node.questionDotToken }));
  base(c, 'object', node);
  visit.expression(c, 'expression', node.argumentExpression);
  c.close();
}

function nonNull(c, role, node) {
  c.open(role, 'TSNonNullExpression', node);
  base(c, 'expression', node);
  c.close();
}

const LINKS = {
  CallExpression: call,
  PropertyAccessExpression: propertyAccess,
  ElementAccessExpression: elementAccess,
  NonNullExpression: nonNull,
};
const link = byKind(LINKS, 'a link of a chain');

const ASSIGNMENTS = /^(?:=|[-+*/%&|^]=|\*\*=|<<=|>>>?=|&&=|\|\|=|\?\?=)$/;
const LOGICAL = new Set(['&&', '||', '??']);

function sequence(c, role, node) {
  const parts = [];
  let left = node;
  while (left.kind === c.kinds.BinaryExpression && left.operatorToken.kind === c.kinds.CommaToken) {
    parts.push(left.right);
    left = left.left;
  }
  parts.push(left);
  c.open(role, 'SequenceExpression', node);
  each(c, 'expressions', parts.reverse(), 'expression');
  c.close();
}

function binary(c, role, node) {
  const operator = c.ts.tokenToString(node.operatorToken.kind);
  if (operator === ',') return sequence(c, role, node);
  if (ASSIGNMENTS.test(operator)) {
    c.open(role, 'AssignmentExpression', node, operator);
    visit.target(c, 'left', node.left);
  } else if (node.left.kind === c.kinds.PrivateIdentifier) {
    c.open(role, 'PrivateInExpression', node);
    visit.privateName(c, 'left', node.left);
  } else {
    c.open(role, LOGICAL.has(operator) ? 'LogicalExpression' : 'BinaryExpression', node, operator);
    visit.expression(c, 'left', node.left);
  }
  visit.expression(c, 'right', node.right);
  c.close();
}

const unary = (word, field = 'expression') => (c, role, node) => {
  c.open(role, 'UnaryExpression', node, word || c.ts.tokenToString(node.operator));
  visit.expression(c, 'argument', node[field]);
  c.close();
};

function update(c, role, node, prefix) {
  c.open(role, 'UpdateExpression', node, c.ts.tokenToString(node.operator), marksOf({ prefix }));
  visit.simpleTarget(c, 'argument', node.operand);
  c.close();
}

function prefixed(c, role, node) {
  const isUpdate = node.operator === c.kinds.PlusPlusToken || node.operator === c.kinds.MinusMinusToken;
  if (isUpdate) update(c, role, node, true);
  else unary(null, 'operand')(c, role, node);
}

function yieldExpression(c, role, node) {
  c.open(role, 'YieldExpression', node, '', marksOf({ delegate: node.asteriskToken }));
  each(c, 'argument', node.expression, 'expression');
  c.close();
}

const META = { NewKeyword: 'new', ImportKeyword: 'import' };
const META_NAMES = { new: 'target', import: 'meta' };

function metaProperty(c, role, node) {
  const word = META[c.kindName({ kind: node.keywordToken })];
  const start = c.start(node);
  const property = c.ts.idText(node.name);
  if (property !== META_NAMES[word]) c.refuse(node.name, `'${property}' is not a valid meta-property for keyword '${word}'. Did you mean '${META_NAMES[word]}'?`);
  c.open(role, 'MetaProperty', node);
  c.leafAt('meta', 'IdentifierName', start, start + word.length, word);
  visit.name(c, 'property', node.name);
  c.close();
  if (word === 'import') c.writer.isModule = true;
}

function tagged(c, role, node) {
  c.open(role, 'TaggedTemplateExpression', node);
  visit.expression(c, 'tag', node.tag);
  each(c, 'typeArguments', node.typeArguments && [node.typeArguments], 'typeArguments');
  visit.template(c, 'quasi', node.template, true);
  c.close();
}

function instantiation(c, role, node) {
  c.open(role, 'TSInstantiationExpression', node);
  visit.expression(c, 'expression', node.expression);
  each(c, 'typeArguments', node.typeArguments && [node.typeArguments], 'typeArguments');
  c.close();
}

const typed = (kind) => plain(kind, ['expression', 'expression', 'expression'], ['type', 'type', 'type']);

const EXPRESSIONS = {
  ...LITERALS,
  ...LINKS,
  Identifier: visit.reference,
  ThisKeyword: plain('ThisExpression'),
  MetaProperty: metaProperty,
  ArrayLiteralExpression: array,
  ObjectLiteralExpression: plain('ObjectExpression', ['properties', 'properties', 'objectProperty']),
  NewExpression: construct,
  TaggedTemplateExpression: tagged,
  PrefixUnaryExpression: prefixed,
  PostfixUnaryExpression: (c, role, node) => update(c, role, node, false),
  DeleteExpression: unary('delete'),
  TypeOfExpression: unary('typeof'),
  VoidExpression: unary('void'),
  BinaryExpression: binary,
  ConditionalExpression: plain('ConditionalExpression', ['test', 'condition', 'expression'],
    ['consequent', 'whenTrue', 'expression'], ['alternate', 'whenFalse', 'expression']),
  ParenthesizedExpression: plain('ParenthesizedExpression', ['expression', 'expression', 'expression']),
  AwaitExpression: plain('AwaitExpression', ['argument', 'expression', 'expression']),
  YieldExpression: yieldExpression,
  ArrowFunction: (c, role, node) => visit.arrow(c, role, node),
  FunctionExpression: (c, role, node) => visit.functionExpression(c, role, node),
  ClassExpression: (c, role, node) => visit.classExpression(c, role, node),
  AsExpression: typed('TSAsExpression'),
  SatisfiesExpression: typed('TSSatisfiesExpression'),
  TypeAssertionExpression: typed('TSTypeAssertion'),
  ExpressionWithTypeArguments: instantiation,
};
const expression = byKind(EXPRESSIONS, 'an expression');

visit.expression = (c, role, node) => {
  if (!c.isChain(node)) return expression(c, role, node);
  c.open(role, 'ChainExpression', node);
  link(c, 'expression', node);
  c.close();
};

module.exports = { EXPRESSIONS };
