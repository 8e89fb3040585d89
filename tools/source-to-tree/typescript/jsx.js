'use strict';
// JSX.

const { isJsxReference } = require('../texts');
const { visit, each, byKind } = require('./visit');
const { EXPRESSIONS } = require('./expressions');

// A name with a colon is a node of its own in newer compilers, and one identifier in older ones.
function namespaced(c, role, node, [namespace, name]) {
  const start = c.start(node);
  const colon = c.text.indexOf(':', start);
  c.open(role, 'JSXNamespacedName', node);
  c.leafAt('namespace', 'JSXIdentifier', start, start + namespace.length, namespace);
  const at = c.text.indexOf(name, colon);
  c.leafAt('name', 'JSXIdentifier', at, at + name.length, name);
  c.close();
}

function partsOf(c, node) {
  if (node.namespace) return [c.ts.idText(node.namespace), c.ts.idText(node.name)];
  return c.ts.idText(node).split(':');
}

const jsxIdentifier = (c, role, node) => c.leaf(role, 'JSXIdentifier', node, c.ts.idText(node));

function elementName(c, role, node) {
  const parts = partsOf(c, node);
  if (parts.length > 1) namespaced(c, role, node, parts);
  else if (isJsxReference(parts[0])) visit.reference(c, role, node);
  else jsxIdentifier(c, role, node);
}

function attributeName(c, role, node) {
  const parts = partsOf(c, node);
  if (parts.length > 1) namespaced(c, role, node, parts);
  else jsxIdentifier(c, role, node);
}

function memberName(c, role, node) {
  c.open(role, 'JSXMemberExpression', node);
  jsxObject(c, 'object', node.expression);
  jsxIdentifier(c, 'property', node.name);
  c.close();
}

const thisExpression = (c, role, node) => c.leaf(role, 'ThisExpression', node);
const jsxObject = byKind({
  Identifier: (c, role, node) => visit.reference(c, role, node),
  ThisKeyword: thisExpression,
  PropertyAccessExpression: memberName,
}, 'part of the name of an element');
const tagName = byKind({
  Identifier: elementName,
  JsxNamespacedName: elementName,
  ThisKeyword: thisExpression,
  PropertyAccessExpression: memberName,
}, 'the name of an element');

// The text of an attribute's string is as it is spelled.
function attributeValue(c, node) {
  if (node.kind !== c.kinds.StringLiteral) return visit.jsxChild(c, 'value', node);
  const start = c.opaque(node);
  return c.leaf('value', 'StringLiteral', node, c.text.slice(start + 1, node.end - 1));
}

function attribute(c, role, node) {
  if (node.kind === c.kinds.JsxSpreadAttribute) {
    c.open(role, 'JSXSpreadAttribute', node);
    visit.expression(c, 'argument', node.expression);
  } else {
    c.open(role, 'JSXAttribute', node);
    attributeName(c, 'name', node.name);
    if (node.initializer) attributeValue(c, node.initializer);
  }
  c.close();
}

function openingElement(c, node) {
  c.open('opening', 'JSXOpeningElement', node);
  tagName(c, 'name', node.tagName);
  each(c, 'typeArguments', node.typeArguments && [node.typeArguments], 'typeArguments');
  for (const property of node.attributes.properties) attribute(c, 'attributes', property);
  c.close();
}

function element(c, role, node) {
  c.open(role, 'JSXElement', node);
  openingElement(c, node.openingElement);
  each(c, 'children', node.children, 'jsxChild');
  c.open('closing', 'JSXClosingElement', node.closingElement);
  tagName(c, 'name', node.closingElement.tagName);
  c.close();
  c.close();
}

function selfClosing(c, role, node) {
  c.open(role, 'JSXElement', node);
  openingElement(c, node);
  c.close();
}

function fragment(c, role, node) {
  c.open(role, 'JSXFragment', node);
  c.leaf('opening', 'JSXOpeningFragment', node.openingFragment);
  each(c, 'children', node.children, 'jsxChild');
  c.leaf('closing', 'JSXClosingFragment', node.closingFragment);
  c.close();
}

function container(c, role, node) {
  c.open(role, node.dotDotDotToken ? 'JSXSpreadChild' : 'JSXExpressionContainer', node);
  if (node.expression) visit.expression(c, 'expression', node.expression);
  else c.leafAt('expression', 'JSXEmptyExpression', c.start(node) + 1, node.end - 1);
  c.close();
}

// A text begins where the mark before it ends, with its spaces.
function text(c, role, node) {
  c.hide(node.pos, node.end);
  c.leafAt(role, 'JSXText', node.pos, node.end, c.text.slice(node.pos, node.end));
}

const ELEMENTS = { JsxElement: element, JsxSelfClosingElement: selfClosing, JsxFragment: fragment };
visit.jsxChild = byKind({ ...ELEMENTS, JsxExpression: container, JsxText: text }, 'a child of an element');
Object.assign(EXPRESSIONS, ELEMENTS);
