'use strict';
// Classes and their members.

const { skipTrivia, afterWords } = require('../trivia');
const { visit, each, byType, plain, marksOf, marksOfTwo, typeArgumentsOf } = require('./visit');
const { addDeclarations } = require('./statements');

visit.decorator = plain('Decorator', { expression: 'expression' });

// Before a line end Babel takes the types for a part of the expression.
function heritageOf({ superClass, superTypeArguments, superTypeParameters }) {
  if (superClass && superClass.type === 'TSInstantiationExpression') return { base: superClass.expression, types: typeArgumentsOf(superClass) };
  return { base: superClass, types: superTypeArguments || superTypeParameters };
}

visit.class = (c, role, node, text) => {
  const start = classStart(c, node);
  c.openAt(role, 'Class', start, c.end(node), text, marksOfTwo('declare', node.declare, 'abstract', node.abstract));
  each(c, 'decorators', node.decorators, 'decorator');
  each(c, 'id', node.id, 'bindingName');
  each(c, 'typeParameters', node.typeParameters, 'typeParameters');
  const { base, types } = heritageOf(node);
  each(c, 'heritage', base, 'expression');
  each(c, 'typeArguments', types, 'typeArguments');
  each(c, 'implements', node.implements, 'implements');
  c.open('body', 'ClassBody', node.body);
  each(c, 'body', node.body.body, 'classElement');
  c.close();
  c.close();
};

// A class begins at its decorators, or behind the export that stands after them.
function classStart(c, node) {
  const decorators = node.decorators || [];
  if (decorators.length === 0) return c.start(node);
  const behind = skipTrivia(c.text, c.end(decorators[decorators.length - 1]));
  const inner = afterWords(c.text, behind, /^(?:export|default)$/);
  return inner > behind ? inner : Math.min(c.start(decorators[0]), c.start(node));
}

const memberMarks = (node) => ({
  static: node.static,
  computed: node.computed,
  abstract: node.abstract || node.type.startsWith('TSAbstract'),
  optional: node.optional,
  override: node.override,
  [node.accessibility]: node.accessibility,
});

// Where the value of a method begins: in Babel's dialect the member itself is the function.
function valueStart(c, node) {
  if (node.value) return c.start(node.value);
  if (node.typeParameters) return c.start(node.typeParameters);
  let at = skipTrivia(c.text, c.end(node.key));
  if (node.computed) at = skipTrivia(c.text, at + 1);
  return c.text[at] === '?' ? skipTrivia(c.text, at + 1) : at;
}

function method(c, role, node) {
  c.open(role, 'MethodDefinition', node, node.kind, marksOf(memberMarks(node)));
  each(c, 'decorators', node.decorators, 'decorator');
  visit.key(c, 'key', node.key, node.computed);
  visit.methodValue(c, 'value', node.value || node, valueStart(c, node));
  c.close();
}
visit.methodStart = valueStart;

function property(kind) {
  return (c, role, node) => {
    const marks = { ...memberMarks(node), declare: node.declare, definite: node.definite, readonly: node.readonly };
    c.open(role, kind, node, '', marksOf(marks));
    each(c, 'decorators', node.decorators, 'decorator');
    visit.key(c, 'key', node.key, node.computed);
    each(c, 'type', node.typeAnnotation, 'typeAnnotation');
    each(c, 'value', node.value, 'expression');
    c.close();
  };
}

const definition = property('PropertyDefinition');
const accessor = property('AccessorProperty');
const statements = (c, node) => each(c, 'body', node.body, 'statement');

function staticBlock(c, role, node) {
  c.open(role, 'StaticBlock', node);
  c.within(true, statements, node);
  c.close();
}

const ELEMENTS = {
  MethodDefinition: method,
  TSAbstractMethodDefinition: method,
  ClassMethod: method,
  ClassPrivateMethod: method,
  TSDeclareMethod: method,
  PropertyDefinition: definition,
  TSAbstractPropertyDefinition: definition,
  ClassProperty: definition,
  ClassPrivateProperty: definition,
  AccessorProperty: accessor,
  TSAbstractAccessorProperty: accessor,
  ClassAccessorProperty: accessor,
  StaticBlock: staticBlock,
  TSIndexSignature: (c, role, node) => visit.indexSignature(c, role, node),
};
visit.classElement = byType(ELEMENTS, 'a member of a class');

visit.classDeclaration = (c, role, node) => visit.class(c, role, node, 'declaration');
visit.classExpression = (c, role, node) => visit.class(c, role, node, 'expression');
addDeclarations({ ClassDeclaration: visit.classDeclaration });
