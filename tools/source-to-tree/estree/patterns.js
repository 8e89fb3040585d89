'use strict';
// Patterns: those that bind names, and those that are assigned to.

const { closingEnd } = require('../trivia');
const { visit, each, plain, byType, markOf, marksOfTwo } = require('./visit');

const isRest = (node) => node.type === 'RestElement' || node.type === 'SpreadElement' || node.type === 'ExperimentalRestProperty';

// The end of a pattern without its type.
function patternEnd(c, node, list, mark) {
  if (!node.typeAnnotation && !node.optional) return c.end(node);
  const last = list[list.length - 1];
  return closingEnd(c.text, last ? c.end(last) : c.start(node) + 1, mark);
}

function openPattern(c, role, kind, node, list, mark) {
  c.openAt(role, kind, c.start(node), patternEnd(c, node, list, mark));
}

function bindingProperty(c, role, node) {
  c.open(role, 'BindingProperty', node, '', marksOfTwo('shorthand', node.shorthand, 'computed', node.computed));
  visit.key(c, 'key', node.key, node.computed);
  visit.binding(c, 'value', node.value);
  c.close();
}

visit.bindingRest = (c, role, node) => {
  c.openAt(role, 'BindingRestElement', c.start(node), node.typeAnnotation ? c.bindingEnd(node.argument) : c.end(node));
  visit.binding(c, 'argument', node.argument);
  c.close();
};

const BINDINGS = {
  Identifier: (c, role, node) => visit.bindingName(c, role, node),
  ObjectPattern(c, role, node) {
    openPattern(c, role, 'ObjectPattern', node, node.properties, '}');
    for (const property of node.properties) {
      if (isRest(property)) visit.bindingRest(c, 'rest', property);
      else bindingProperty(c, 'properties', property);
    }
    c.close();
  },
  ArrayPattern(c, role, node) {
    openPattern(c, role, 'ArrayPattern', node, node.elements, ']');
    for (const element of node.elements) {
      if (element === null) continue;
      if (isRest(element)) visit.bindingRest(c, 'rest', element);
      else visit.binding(c, 'elements', element);
    }
    c.close();
  },
  AssignmentPattern: plain('AssignmentPattern', { left: 'binding', right: 'expression' }),
};
const patternOf = byType(BINDINGS, 'a pattern');
visit.binding = (c, role, node) => (node.type === 'Identifier' ? visit.bindingName : patternOf)(c, role, node);

function targetProperty(c, role, node) {
  if (node.shorthand) {
    const { value } = node;
    c.open(role, 'AssignmentTargetPropertyIdentifier', node);
    visit.reference(c, 'binding', value.type === 'AssignmentPattern' ? value.left : value);
    each(c, 'init', value.type === 'AssignmentPattern' ? value.right : null, 'expression');
    c.close();
    return;
  }
  c.open(role, 'AssignmentTargetPropertyProperty', node, '', markOf('computed', node.computed));
  visit.key(c, 'key', node.key, node.computed);
  visit.targetOrDefault(c, 'binding', node.value);
  c.close();
}

function targetRest(c, role, node) {
  c.open(role, 'AssignmentTargetRest', node);
  visit.target(c, 'binding', node.argument);
  c.close();
}

const expression = (c, role, node) => visit.expression(c, role, node);
const TARGETS = {
  Identifier: (c, role, node) => visit.reference(c, role, node),
  MemberExpression: (c, role, node) => visit.member(c, role, node),
  TSAsExpression: expression,
  TSSatisfiesExpression: expression,
  TSTypeAssertion: expression,
  TSNonNullExpression: expression,
  ParenthesizedExpression: (c, role, node) => visit.target(c, role, node.expression),
  ObjectPattern(c, role, node) {
    c.open(role, 'ObjectAssignmentTarget', node);
    for (const property of node.properties) {
      if (isRest(property)) targetRest(c, 'rest', property);
      else targetProperty(c, 'properties', property);
    }
    c.close();
  },
  ArrayPattern(c, role, node) {
    c.open(role, 'ArrayAssignmentTarget', node);
    for (const element of node.elements) {
      if (element === null) continue;
      if (isRest(element)) targetRest(c, 'rest', element);
      else visit.targetOrDefault(c, 'elements', element);
    }
    c.close();
  },
};
const targetOf = byType(TARGETS, 'assigned to');
visit.target = (c, role, node) => {
  const type = node.type;
  if (type === 'Identifier') visit.reference(c, role, node);
  else if (type === 'MemberExpression') visit.member(c, role, node);
  else targetOf(c, role, node);
};

visit.targetOrDefault = (c, role, node) => {
  if (node.type !== 'AssignmentPattern') return visit.target(c, role, node);
  c.open(role, 'AssignmentTargetWithDefault', node);
  visit.target(c, 'binding', node.left);
  visit.expression(c, 'init', node.right);
  c.close();
};
