'use strict';
// Imports and exports.

const { skipTrivia, nameEnd, closingEnd } = require('../trivia');
const { visit, each, byType, markOf } = require('./visit');
const { STATEMENTS } = require('./statements');

const typeMark = (kind) => markOf('type', kind === 'type');

const SPECIFIERS = {
  ImportSpecifier(c, role, node) {
    c.open(role, 'ImportSpecifier', node, '', typeMark(node.importKind));
    visit.moduleName(c, 'imported', node.imported);
    visit.bindingName(c, 'local', node.local);
    c.close();
  },
  ImportDefaultSpecifier: local('ImportDefaultSpecifier'),
  ImportNamespaceSpecifier: local('ImportNamespaceSpecifier'),
};

function local(kind) {
  return (c, role, node) => {
    c.open(role, kind, node);
    visit.bindingName(c, 'local', node.local);
    c.close();
  };
}
visit.importSpecifier = byType(SPECIFIERS, 'imported');

visit.attribute = (c, role, node) => {
  c.open(role, 'ImportAttribute', node);
  visit.moduleName(c, 'key', node.key);
  visit.literal(c, 'value', node.value);
  c.close();
};

// The clause of attributes has no node of its own: it goes from its word to its brace.
function source(c, node) {
  visit.literal(c, 'source', node.source);
  const entries = node.attributes && node.attributes.length ? node.attributes : node.assertions;
  const start = skipTrivia(c.text, c.end(node.source));
  if (start >= c.end(node)) return;
  if (!/^(with|assert)$/.test(c.text.slice(start, nameEnd(c.text, start)))) return;
  const last = entries && entries[entries.length - 1];
  const brace = skipTrivia(c.text, nameEnd(c.text, start));
  if (c.text[brace] !== '{') return;
  c.openAt('attributes', 'WithClause', start, closingEnd(c.text, last ? c.end(last) : brace + 1, '}'));
  each(c, 'entries', entries, 'attribute');
  c.close();
}

function exportSpecifier(c, node, fromModule) {
  c.open('specifiers', 'ExportSpecifier', node, '', typeMark(node.exportKind));
  if (fromModule || node.local.type !== 'Identifier') visit.moduleName(c, 'local', node.local);
  else visit.reference(c, 'local', node.local);
  visit.moduleName(c, 'exported', node.exported);
  c.close();
}

function exported(c, role, node) {
  if (node.declaration) {
    c.annotations.passOn(c.start(node), c.start(node.declaration));
    c.open(role, 'ExportDeclaration', node);
    visit.declaration(c, 'declaration', node.declaration);
    c.close();
    return;
  }
  const only = node.specifiers[0];
  if (only && only.type === 'ExportNamespaceSpecifier') return exportAll(c, role, { ...node, exported: only.exported });
  c.open(role, node.source ? 'ExportFromDeclaration' : 'ExportNamedDeclaration', node, '', typeMark(node.exportKind));
  for (const specifier of node.specifiers) exportSpecifier(c, specifier, Boolean(node.source));
  if (node.source) source(c, node);
  c.close();
}

function exportAll(c, role, node) {
  c.open(role, 'ExportAllDeclaration', node, '', typeMark(node.exportKind));
  each(c, 'exported', node.exported, 'moduleName');
  source(c, node);
  c.close();
}

const DEFAULTS = new Set(['FunctionDeclaration', 'ClassDeclaration', 'TSDeclareFunction', 'TSInterfaceDeclaration']);

function exportDefault(c, role, node) {
  c.annotations.passOn(c.start(node), c.start(node.declaration));
  c.open(role, 'ExportDefaultDeclaration', node);
  if (DEFAULTS.has(node.declaration.type)) visit.declaration(c, 'declaration', node.declaration);
  else visit.expression(c, 'declaration', node.declaration);
  c.close();
}

Object.assign(STATEMENTS, {
  ImportDeclaration(c, role, node) {
    if (node.phase) c.refuse(node, `the tree has no kind for \`import ${node.phase}\``);
    c.open(role, 'ImportDeclaration', node, '', typeMark(node.importKind));
    each(c, 'specifiers', node.specifiers, 'importSpecifier');
    source(c, node);
    c.close();
  },
  ExportNamedDeclaration: exported,
  ExportAllDeclaration: exportAll,
  ExportDefaultDeclaration: exportDefault,
});
