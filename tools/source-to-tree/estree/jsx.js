'use strict';
// JSX.

const { isJsxReference } = require('../texts');
const { visit, each, plain, byType } = require('./visit');
const { EXPRESSIONS } = require('./expressions');

const identifier = (c, role, node) => c.leaf(role, 'JSXIdentifier', node, node.name);
const namespaced = plain('JSXNamespacedName', { namespace: 'jsxIdentifier', name: 'jsxIdentifier' });
visit.jsxIdentifier = identifier;

// `this` is a keyword in the name of an element.
function variable(c, role, node) {
  if (node.name === 'this') c.leaf(role, 'ThisExpression', node);
  else c.leaf(role, 'IdentifierReference', node, node.name);
}

function elementName(c, role, node) {
  if (node.name === 'this' || isJsxReference(node.name)) variable(c, role, node);
  else identifier(c, role, node);
}

function memberName(c, role, node) {
  c.open(role, 'JSXMemberExpression', node);
  if (node.object.type === 'JSXMemberExpression') memberName(c, 'object', node.object);
  else variable(c, 'object', node.object);
  identifier(c, 'property', node.property);
  c.close();
}

visit.jsxName = byType({
  JSXIdentifier: elementName,
  JSXNamespacedName: namespaced,
  JSXMemberExpression: memberName,
}, 'the name of an element');

// The text of an attribute's string is as it is spelled.
function attributeValue(c, node) {
  if (node.type !== 'Literal' && node.type !== 'StringLiteral') return visit.jsxChild(c, 'value', node);
  return c.leaf('value', 'StringLiteral', node, c.text.slice(c.start(node) + 1, c.end(node) - 1));
}

function attribute(c, role, node) {
  if (node.type === 'JSXSpreadAttribute') {
    c.open(role, 'JSXSpreadAttribute', node);
    visit.expression(c, 'argument', node.argument);
  } else {
    c.open(role, 'JSXAttribute', node);
    if (node.name.type === 'JSXNamespacedName') namespaced(c, 'name', node.name);
    else identifier(c, 'name', node.name);
    if (node.value) attributeValue(c, node.value);
  }
  c.close();
}
visit.jsxAttribute = attribute;

visit.jsxOpening = (c, role, node) => {
  c.open(role, 'JSXOpeningElement', node);
  visit.jsxName(c, 'name', node.name);
  each(c, 'typeArguments', node.typeArguments || node.typeParameters, 'typeArguments');
  each(c, 'attributes', node.attributes, 'jsxAttribute');
  c.close();
};
visit.jsxClosing = plain('JSXClosingElement', { name: 'jsxName' });

function element(c, role, node) {
  c.open(role, 'JSXElement', node);
  visit.jsxOpening(c, 'opening', node.openingElement);
  each(c, 'children', node.children, 'jsxChild');
  each(c, 'closing', node.closingElement, 'jsxClosing');
  c.close();
}

function fragment(c, role, node) {
  c.open(role, 'JSXFragment', node);
  c.leaf('opening', 'JSXOpeningFragment', node.openingFragment);
  each(c, 'children', node.children, 'jsxChild');
  c.leaf('closing', 'JSXClosingFragment', node.closingFragment);
  c.close();
}

function container(c, role, node) {
  c.open(role, 'JSXExpressionContainer', node);
  if (node.expression.type === 'JSXEmptyExpression') c.leafAt('expression', 'JSXEmptyExpression', c.start(node) + 1, c.end(node) - 1);
  else visit.expression(c, 'expression', node.expression);
  c.close();
}

const text = (c, role, node) => c.leaf(role, 'JSXText', node, c.text.slice(c.start(node), c.end(node)));
const ELEMENTS = { JSXElement: element, JSXFragment: fragment };

visit.jsxChild = byType({
  ...ELEMENTS,
  JSXExpressionContainer: container,
  JSXSpreadChild: plain('JSXSpreadChild', { expression: 'expression' }),
  JSXText: text,
  Literal: text,
}, 'a child of an element');
Object.assign(EXPRESSIONS, ELEMENTS);
