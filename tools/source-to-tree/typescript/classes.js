'use strict';
// Classes and their members.

const { skipTrivia, nameEnd } = require('../trivia');
const { visit, each, byKind } = require('./visit');
const { decoratorsOf, modifier, modifierMarks } = require('./modifiers');
const { isComputed } = require('./patterns');
const { DECLARATIONS } = require('./statements');

// The types of a clause, by its word.
function heritage(c, node, word) {
  const clauses = (node.heritageClauses || []).filter((clause) => clause.token === c.kinds[word]);
  return clauses.flatMap((clause) => clause.types);
}

function baseClass(c, node) {
  const [base, second] = heritage(c, node, 'ExtendsKeyword');
  if (second) c.refuse(second, 'Classes can only extend a single class.');
  if (!base) return;
  if (base.kind !== c.kinds.ExpressionWithTypeArguments) return visit.expression(c, 'heritage', base);
  visit.expression(c, 'heritage', base.expression);
  each(c, 'typeArguments', base.typeArguments && [base.typeArguments], 'typeArguments');
}

function writeClass(c, role, node, { text, start }) {
  c.openAt(role, 'Class', start, node.end, text, modifierMarks(c, node, ['declare', 'abstract']));
  each(c, 'decorators', decoratorsOf(c, node), 'decorator');
  each(c, 'id', node.name, 'bindingName');
  each(c, 'typeParameters', node.typeParameters && [node.typeParameters], 'typeParameters');
  baseClass(c, node);
  for (const type of heritage(c, node, 'ImplementsKeyword')) visit.heritage(c, 'implements', 'TSClassImplements', type);
  c.openAt('body', 'ClassBody', node.members.pos - 1, node.end);
  for (const member of node.members) visit.classElement(c, 'body', member);
  c.close();
  c.close();
}

DECLARATIONS.ClassDeclaration = (c, role, node, start) => writeClass(c, role, node, { text: 'declaration', start });
visit.classExpression = (c, role, node) => writeClass(c, role, node, { text: 'expression', start: c.start(node) });

const ACCESS = ['public', 'private', 'protected'];
const METHOD_MARKS = ['static', 'abstract', 'override', 'async', ...ACCESS];
const PROPERTY_MARKS = ['declare', 'static', 'abstract', 'readonly', 'override', ...ACCESS];

function memberMarks(c, node, allowed) {
  const marks = modifierMarks(c, node, allowed);
  if (isComputed(c, node.name)) marks.push('computed');
  if (node.questionToken) marks.push('optional');
  if (node.exclamationToken) marks.push('definite');
  return marks;
}

function method(kind) {
  return (c, role, node) => {
    const marks = memberMarks(c, node, METHOD_MARKS);
    const isAsync = marks.includes('async');
    const own = marks.filter((mark) => mark !== 'async' && mark !== 'definite');
    c.open(role, 'MethodDefinition', node, kind, own);
    each(c, 'decorators', decoratorsOf(c, node), 'decorator');
    visit.key(c, 'key', node.name);
    visit.methodValue(c, 'value', node, isAsync);
    c.close();
  };
}

// The word `constructor` has no node; it may be written as a string.
function constructorKey(c, node) {
  const start = node.modifiers && node.modifiers.length ? skipTrivia(c.text, node.modifiers.end) : c.start(node);
  if (!/['"]/.test(c.text[start])) return c.leafAt('key', 'IdentifierName', start, nameEnd(c.text, start), 'constructor');
  const end = c.text.indexOf(c.text[start], start + 1) + 1;
  c.hide(start, end);
  return c.leafAt('key', 'StringLiteral', start, end, 'constructor');
}

function constructorMember(c, role, node) {
  const marks = modifierMarks(c, node, ['static', 'override', ...ACCESS]);
  c.open(role, 'MethodDefinition', node, marks.includes('static') ? 'method' : 'constructor', marks);
  each(c, 'decorators', decoratorsOf(c, node), 'decorator');
  constructorKey(c, node);
  visit.methodValue(c, 'value', node, false);
  c.close();
}

function property(c, role, node) {
  const kind = modifier(c, node, 'AccessorKeyword') ? 'AccessorProperty' : 'PropertyDefinition';
  c.open(role, kind, node, '', memberMarks(c, node, PROPERTY_MARKS));
  each(c, 'decorators', decoratorsOf(c, node), 'decorator');
  visit.key(c, 'key', node.name);
  each(c, 'type', node.type, 'typeAnnotation');
  each(c, 'value', node.initializer, 'expression');
  c.close();
}

function staticBlock(c, role, node) {
  modifierMarks(c, node, []);
  c.open(role, 'StaticBlock', node);
  c.within(true, () => each(c, 'body', node.body.statements, 'statement'));
  c.close();
}

visit.classElement = byKind({
  Constructor: constructorMember,
  MethodDeclaration: method('method'),
  GetAccessor: method('get'),
  SetAccessor: method('set'),
  PropertyDeclaration: property,
  ClassStaticBlockDeclaration: staticBlock,
  IndexSignature: (c, role, node) => visit.indexSignature(c, role, node),
  SemicolonClassElement: () => {},
}, 'a member of a class');

module.exports = { heritage };
