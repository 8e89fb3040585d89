'use strict';
// Expressions.

const { skipTrivia } = require('../trivia');
const { kindOf } = require('../kinds');
const { visit, each, plain, markOf, marksOf, marksOfTwo, typeArgumentsOf } = require('./visit');
const { BABEL_LITERALS } = require('./literals');

visit.template = plain('TemplateLiteral', { quasis: 'templateElement', expressions: 'expression' });
visit.spread = plain('SpreadElement', { argument: 'expression' });

visit.argument = (c, role, node) => {
  const type = node.type;
  if (type === 'SpreadElement') visit.spread(c, role, node);
  else expressionOf(c, role, node, type);
};
function calleeOf(c, role, node, type) {
  if (type === 'Super') c.leaf(role, 'Super', node);
  else expressionOf(c, role, node, type);
}
visit.callee = (c, role, node) => calleeOf(c, role, node, node.type);

// The elements of an array, its holes told by the places of their commas.
function holedElements(c, node) {
  let at = c.start(node) + 1;
  for (const element of node.elements) {
    if (element === null) {
      at = skipTrivia(c.text, at);
      c.leafAt('elements', 'Elision', at, at);
      at += 1;
      continue;
    }
    visit.argument(c, 'elements', element);
    const comma = skipTrivia(c.text, c.end(element));
    at = c.text[comma] === ',' ? comma + 1 : comma;
  }
}

const ARRAY = kindOf('ArrayExpression');
function array(c, role, node) {
  const { elements } = node;
  c.writer.open(role, ARRAY, node.start, node.end);
  if (elements.includes(null)) holedElements(c, node);
  else for (let i = 0; i < elements.length; i++) visit.argument(c, 'elements', elements[i]);
  c.writer.close();
}

function propertyMarks({ shorthand, computed }, method) {
  return method && shorthand ? marksOf({ method, shorthand, computed }) : marksOfTwo(method ? 'method' : 'shorthand', method || shorthand, 'computed', computed);
}

const PROPERTY = kindOf('ObjectProperty');
function objectProperty(c, role, node) {
  if (node.type === 'SpreadElement' || node.type === 'SpreadProperty') return visit.spread(c, role, node);
  const kind = node.kind === 'get' || node.kind === 'set' ? node.kind : 'init';
  const isMethod = node.method || node.kind === 'method';
  c.writer.open(role, PROPERTY, node.start, node.end, kind, propertyMarks(node, isMethod));
  visit.key(c, 'key', node.key, node.computed);
  if (isMethod || kind !== 'init') visit.methodValue(c, 'value', node.value || node, visit.methodStart(c, node));
  else visit.expression(c, 'value', node.value);
  c.close();
}
visit.objectProperty = objectProperty;
visit.object = plain('ObjectExpression', { properties: 'objectProperty' });

function importCall(c, role, node) {
  if (node.phase) c.refuse(node, `the tree has no kind for \`import.${node.phase}\``);
  const [argument, options] = node.arguments || [node.source, node.options || node.attributes];
  c.open(role, 'ImportExpression', node);
  visit.expression(c, 'argument', argument);
  each(c, 'options', options, 'expression');
  c.close();
}

const CALL = kindOf('CallExpression');
function call(c, role, node) {
  const { start, end, callee, arguments: given } = node;
  const calleeType = callee.type;
  if (calleeType === 'Import') return importCall(c, role, node);
  c.writer.open(role, CALL, start, end, '', marksOfTwo('optional', node.optional, 'pure', c.annotations.takesPure(start)));
  base(c, 'callee', node, callee, calleeType);
  const types = node.typeArguments || node.typeParameters;
  if (types) visit.typeArguments(c, 'typeArguments', types);
  if (given) for (let i = 0; i < given.length; i++) visit.argument(c, 'arguments', given[i]);
  c.writer.close();
}

function construct(c, role, node) {
  c.open(role, 'NewExpression', node, '', markOf('pure', c.annotations.takesPure(c.start(node))));
  visit.callee(c, 'callee', node.callee);
  each(c, 'typeArguments', typeArgumentsOf(node), 'typeArguments');
  each(c, 'arguments', node.arguments, 'argument');
  c.close();
}

const COMPUTED_MEMBER = kindOf('ComputedMemberExpression');
const STATIC_MEMBER = kindOf('StaticMemberExpression');
const PRIVATE_FIELD = kindOf('PrivateFieldExpression');
function member(c, role, node) {
  const { start, end, object, property } = node;
  const marks = markOf('optional', node.optional);
  if (node.computed) {
    c.writer.open(role, COMPUTED_MEMBER, start, end, '', marks);
    base(c, 'object', node, object, object.type);
    visit.expression(c, 'expression', property);
  } else if (property.type === 'Identifier') {
    c.writer.open(role, STATIC_MEMBER, start, end, '', marks);
    base(c, 'object', node, object, object.type);
    visit.name(c, 'property', property);
  } else {
    c.writer.open(role, PRIVATE_FIELD, start, end, '', marks);
    base(c, 'object', node, object, object.type);
    visit.privateName(c, 'field', property);
  }
  c.writer.close();
}

visit.member = member;

// Babel has no node for a chain, but links of their own types.
const LINKS = { OptionalMemberExpression: member, OptionalCallExpression: call };

function chainOfLinks(c, role, node) {
  c.open(role, 'ChainExpression', node);
  LINKS[node.type](c, 'expression', node);
  c.close();
}

const isLinkType = (type) => type === 'OptionalMemberExpression' || type === 'OptionalCallExpression';
const isLink = (node) => isLinkType(node.type) || (node.type === 'TSNonNullExpression' && isLink(node.expression));

// What a call or member expression stands on: where it is a link, the chain goes on.
function base(c, role, outer, node, type) {
  if (isLinkType(outer.type) && isLink(node)) link(c, role, node);
  else calleeOf(c, role, node, type);
}

function link(c, role, node) {
  if (node.type !== 'TSNonNullExpression') return LINKS[node.type](c, role, node);
  c.open(role, 'TSNonNullExpression', node);
  link(c, 'expression', node.expression);
  c.close();
}

const BINARY = kindOf('BinaryExpression');
function binary(c, role, node) {
  const { left } = node;
  const type = left.type;
  if (type === 'PrivateIdentifier' || type === 'PrivateName') {
    c.open(role, 'PrivateInExpression', node);
    visit.privateName(c, 'left', left);
  } else {
    c.writer.open(role, BINARY, node.start, node.end, node.operator);
    expressionOf(c, 'left', left, type);
  }
  visit.expression(c, 'right', node.right);
  c.writer.close();
}

const LOGICAL = kindOf('LogicalExpression');
function logical(c, role, node) {
  c.writer.open(role, LOGICAL, node.start, node.end, node.operator);
  visit.expression(c, 'left', node.left);
  visit.expression(c, 'right', node.right);
  c.writer.close();
}

const ASSIGNMENT = kindOf('AssignmentExpression');
function assignment(c, role, node) {
  c.writer.open(role, ASSIGNMENT, node.start, node.end, node.operator);
  visit.target(c, 'left', node.left);
  visit.expression(c, 'right', node.right);
  c.writer.close();
}

const CONDITIONAL = kindOf('ConditionalExpression');
function conditional(c, role, node) {
  c.writer.open(role, CONDITIONAL, node.start, node.end);
  visit.expression(c, 'test', node.test);
  visit.expression(c, 'consequent', node.consequent);
  visit.expression(c, 'alternate', node.alternate);
  c.writer.close();
}

const PARENTHESIZED = kindOf('ParenthesizedExpression');
function parenthesized(c, role, node) {
  c.writer.open(role, PARENTHESIZED, node.start, node.end);
  visit.expression(c, 'expression', node.expression);
  c.writer.close();
}

const UNARY = kindOf('UnaryExpression');
function unary(c, role, node) {
  c.writer.open(role, UNARY, node.start, node.end, node.operator);
  visit.expression(c, 'argument', node.argument);
  c.writer.close();
}

const THIS = kindOf('ThisExpression');
const thisExpression = (c, role, node) => c.writer.leaf(role, THIS, node.start, node.end);

function update(c, role, node) {
  c.open(role, 'UpdateExpression', node, node.operator, markOf('prefix', node.prefix));
  visit.target(c, 'argument', node.argument);
  c.close();
}

function yieldExpression(c, role, node) {
  c.open(role, 'YieldExpression', node, '', markOf('delegate', node.delegate));
  each(c, 'argument', node.argument, 'expression');
  c.close();
}

const typed = (kind) => (c, role, node) => {
  c.open(role, kind, node);
  visit.expression(c, 'expression', node.expression);
  visit.type(c, 'type', node.typeAnnotation);
  c.close();
};

function nonNull(c, role, node) {
  c.open(role, 'TSNonNullExpression', node);
  visit.expression(c, 'expression', node.expression);
  c.close();
}

function instantiation(c, role, node) {
  c.open(role, 'TSInstantiationExpression', node);
  visit.expression(c, 'expression', node.expression);
  visit.typeArguments(c, 'typeArguments', typeArgumentsOf(node));
  c.close();
}

const literal = (c, role, node) => visit.literal(c, role, node);
const EXPRESSIONS = {
  ...BABEL_LITERALS,
  Literal: literal,
  Identifier: (c, role, node) => visit.reference(c, role, node),
  TemplateLiteral: visit.template,
  TaggedTemplateExpression(c, role, node) {
    c.open(role, 'TaggedTemplateExpression', node);
    visit.expression(c, 'tag', node.tag);
    each(c, 'typeArguments', typeArgumentsOf(node), 'typeArguments');
    visit.template(c, 'quasi', node.quasi);
    c.close();
  },
  ThisExpression: thisExpression,
  MetaProperty: plain('MetaProperty', { meta: 'name', property: 'name' }),
  ArrayExpression: array,
  ObjectExpression: visit.object,
  CallExpression: call,
  NewExpression: construct,
  ImportExpression: importCall,
  MemberExpression: member,
  OptionalMemberExpression: chainOfLinks,
  OptionalCallExpression: chainOfLinks,
  ChainExpression: plain('ChainExpression', { expression: 'expression' }),
  UnaryExpression: unary,
  UpdateExpression: update,
  BinaryExpression: binary,
  LogicalExpression: logical,
  ConditionalExpression: conditional,
  AssignmentExpression: assignment,
  SequenceExpression: plain('SequenceExpression', { expressions: 'expression' }),
  ParenthesizedExpression: parenthesized,
  AwaitExpression: plain('AwaitExpression', { argument: 'expression' }),
  YieldExpression: yieldExpression,
  ArrowFunctionExpression: (c, role, node) => visit.arrow(c, role, node),
  FunctionExpression: (c, role, node) => visit.functionExpression(c, role, node),
  ClassExpression: (c, role, node) => visit.classExpression(c, role, node),
  TSAsExpression: typed('TSAsExpression'),
  TSSatisfiesExpression: typed('TSSatisfiesExpression'),
  TSTypeAssertion: typed('TSTypeAssertion'),
  TSNonNullExpression: nonNull,
  TSInstantiationExpression: instantiation,
};

// Most expressions are of these types, for which the table isn't asked.
function expressionOf(c, role, node, type) {
  switch (type) {
    case 'Identifier': return visit.reference(c, role, node);
    case 'MemberExpression': return member(c, role, node);
    case 'Literal': return visit.literal(c, role, node);
    case 'CallExpression': return call(c, role, node);
    case 'ThisExpression': return thisExpression(c, role, node);
    case 'BinaryExpression': return binary(c, role, node);
    case 'AssignmentExpression': return assignment(c, role, node);
    default: return rareExpression(c, role, node, type);
  }
}

function rareExpression(c, role, node, type) {
  const visitor = EXPRESSIONS[type];
  if (visitor === undefined) c.refuse(node, `${type} can't be an expression`);
  return visitor(c, role, node);
}

visit.expression = (c, role, node) => expressionOf(c, role, node, node.type);

module.exports = { EXPRESSIONS };
