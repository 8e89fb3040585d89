'use strict';
// Patterns: those that bind names, and those that are assigned to.

const { visit, byKind, marksOf } = require('./visit');

const isComputed = (c, name) => name !== undefined && name.kind === c.kinds.ComputedPropertyName;

// A rest ends its pattern.
function elementsOf(c, list) {
  list.forEach((element, i) => {
    const isRest = element.dotDotDotToken || element.kind === c.kinds.SpreadElement || element.kind === c.kinds.SpreadAssignment;
    if (isRest && i < list.length - 1) c.refuse(element, 'A rest element must be last in a destructuring pattern.');
  });
  return list.filter((element) => element.kind !== c.kinds.OmittedExpression);
}

visit.bindingRest = (c, role, node) => {
  if (node.initializer) c.refuse(node.initializer, 'A rest element cannot have an initializer.');
  c.openAt(role, 'BindingRestElement', c.start(node), node.name.end);
  visit.binding(c, 'argument', node.name);
  c.close();
};

// An element's name, with its default if it has one.
function bindingValue(c, role, node) {
  if (!node.initializer) return visit.binding(c, role, node.name);
  c.openAt(role, 'AssignmentPattern', c.start(node.name), node.end);
  visit.binding(c, 'left', node.name);
  visit.expression(c, 'right', node.initializer);
  c.close();
}

function bindingProperty(c, role, node) {
  const key = node.propertyName || node.name;
  c.open(role, 'BindingProperty', node, '', marksOf({ shorthand: !node.propertyName, computed: isComputed(c, key) }));
  visit.key(c, 'key', key);
  bindingValue(c, 'value', node);
  c.close();
}

function bindingPattern(kind, role, visitElement) {
  return (c, outer, node) => {
    c.open(outer, kind, node);
    for (const element of elementsOf(c, node.elements)) {
      if (element.dotDotDotToken) visit.bindingRest(c, 'rest', element);
      else visitElement(c, role, element);
    }
    c.close();
  };
}

visit.binding = byKind({
  Identifier: visit.bindingName,
  ObjectBindingPattern: bindingPattern('ObjectPattern', 'properties', bindingProperty),
  ArrayBindingPattern: bindingPattern('ArrayPattern', 'elements', bindingValue),
}, 'a pattern');

function targetRest(c, node) {
  c.open('rest', 'AssignmentTargetRest', node);
  visit.target(c, 'binding', node.expression);
  c.close();
}

const TARGET_PROPERTIES = byKind({
  ShorthandPropertyAssignment(c, role, node) {
    c.open(role, 'AssignmentTargetPropertyIdentifier', node);
    visit.reference(c, 'binding', node.name);
    if (node.objectAssignmentInitializer) visit.expression(c, 'init', node.objectAssignmentInitializer);
    c.close();
  },
  PropertyAssignment(c, role, node) {
    c.open(role, 'AssignmentTargetPropertyProperty', node, '', marksOf({ computed: isComputed(c, node.name) }));
    visit.key(c, 'key', node.name);
    visit.targetOrDefault(c, 'binding', node.initializer);
    c.close();
  },
  SpreadAssignment: (c, role, node) => targetRest(c, node),
}, 'assigned to');

function objectTarget(c, role, node) {
  c.open(role, 'ObjectAssignmentTarget', node);
  for (const property of elementsOf(c, node.properties)) TARGET_PROPERTIES(c, 'properties', property);
  c.close();
}

function arrayTarget(c, role, node) {
  c.open(role, 'ArrayAssignmentTarget', node);
  for (const element of elementsOf(c, node.elements)) {
    if (element.kind === c.kinds.SpreadElement) targetRest(c, element);
    else visit.targetOrDefault(c, 'elements', element);
  }
  c.close();
}

const NO_TARGET = 'The left-hand side of an assignment expression must be a variable or a property access.';
const expression = (c, role, node) => {
  if (c.isChain(node)) c.refuse(node, 'The left-hand side of an assignment expression may not be an optional property access.');
  visit.expression(c, role, node);
};
const TARGETS = {
  Identifier: visit.reference,
  PropertyAccessExpression: expression,
  ElementAccessExpression: expression,
  AsExpression: expression,
  SatisfiesExpression: expression,
  TypeAssertionExpression: expression,
  NonNullExpression: expression,
  ParenthesizedExpression: (c, role, node) => visit.target(c, role, node.expression),
  ObjectLiteralExpression: objectTarget,
  ArrayLiteralExpression: arrayTarget,
};
const target = byKind(TARGETS, 'assigned to');

visit.target = (c, role, node) => {
  if (!(c.kindName(node) in TARGETS)) c.refuse(node, NO_TARGET);
  target(c, role, node);
};

// An update changes a single name or member.
visit.simpleTarget = (c, role, node) => {
  const inner = c.withoutParentheses(node);
  if (inner.kind === c.kinds.ObjectLiteralExpression || inner.kind === c.kinds.ArrayLiteralExpression) c.refuse(node, NO_TARGET);
  visit.target(c, role, inner);
};

visit.targetOrDefault = (c, role, node) => {
  if (node.kind !== c.kinds.BinaryExpression || node.operatorToken.kind !== c.kinds.EqualsToken) return visit.target(c, role, node);
  c.open(role, 'AssignmentTargetWithDefault', node);
  visit.target(c, 'binding', node.left);
  visit.expression(c, 'init', node.right);
  c.close();
};

module.exports = { isComputed };
