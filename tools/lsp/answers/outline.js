'use strict';
// The symbols of a document, each below what it is declared in.

const { KIND, ROLE, START, END, TEXT } = require('../../edits/rows.js');
const { OUTLINE, outlineKind } = require('../kinds.js');

// Members of classes and interfaces, which are no symbols of a scope.
const MEMBERS = {
  MethodDefinition: ([, , , , , text]) => (text === 'constructor' ? OUTLINE.constructor : text === 'method' ? OUTLINE.method : OUTLINE.property),
  PropertyDefinition: () => OUTLINE.property,
  AccessorProperty: () => OUTLINE.property,
  TSPropertySignature: () => OUTLINE.property,
  TSMethodSignature: () => OUTLINE.method,
};

const KEYS = { IdentifierName: (text) => text, PrivateIdentifier: (text) => `#${text}`, StringLiteral: (text) => JSON.stringify(text) };

function symbolItems(analysed) {
  return analysed.report.symbols.flatMap((symbol) => {
    const kind = outlineKind(analysed, symbol);
    return kind === null ? [] : [{ node: symbol.node, name: symbol.name, kind, span: symbol.span }];
  });
}

// The row of a member's key whose name is told, or -1. What stands before it are decorators.
function keyOf({ rows, ends, parents }, node) {
  for (let at = node + 1; at < ends[node]; at = ends[at]) {
    if (parents[at] === node && rows[at][ROLE] === 'key') {
      return KEYS[rows[at][KIND]] === undefined ? -1 : at;
    }
  }
  return -1;
}

function memberItems(analysed) {
  const items = [];
  analysed.rows.forEach((row, node) => {
    const kind = MEMBERS[row[KIND]]?.(row);
    const key = kind === undefined ? -1 : keyOf(analysed, node);
    if (key >= 0) {
      const { [KIND]: keyKind, [TEXT]: text, [START]: start, [END]: end } = analysed.rows[key];
      items.push({ node, name: KEYS[keyKind](text), kind, span: { start, end } });
    }
  });
  return items;
}

const isNameless = (name) => name.trim() === '';

function treeOf(analysed, items, places) {
  const top = [];
  const open = [];
  for (const { node, name, kind, span } of items) {
    while (open.length > 0 && (open[open.length - 1].node === node || analysed.ends[open[open.length - 1].node] <= node)) {
      open.pop();
    }
    const around = analysed.spanOf(node);
    const range = { start: Math.min(around.start, span.start), end: Math.max(around.end, span.end) };
    const made = { name: isNameless(name) ? '""' : name, kind, range: places.rangeOf(range), selectionRange: places.rangeOf(span), children: [] };
    (open.length === 0 ? top : open[open.length - 1].made.children).push(made);
    open.push({ node, made });
  }
  return top;
}

// The same as a list, for clients that take no trees.
function flat(tree, uri, containerName) {
  return tree.flatMap(({ name, kind, range, children }) => [
    { name, kind, location: { uri, range }, ...(containerName !== undefined && { containerName }) },
    ...flat(children, uri, name),
  ]);
}

async function documentSymbol(document, params, { client }) {
  const analysed = await document.analysed();
  const items = [...symbolItems(analysed), ...memberItems(analysed)].sort((left, right) => left.node - right.node || left.span.start - right.span.start);
  const tree = treeOf(analysed, items, document.places);
  return client.takesTree ? tree : flat(tree, document.uri);
}

module.exports = { documentSymbol };
