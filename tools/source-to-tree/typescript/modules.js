'use strict';
// Imports and exports.

const { visit, each, byKind, marksOf } = require('./visit');
const { modifierMarks } = require('./modifiers');
const { STATEMENTS, DECLARATIONS } = require('./statements');

const typeMark = (node) => marksOf({ type: node && node.isTypeOnly });

visit.attribute = (c, role, node) => {
  c.open(role, 'ImportAttribute', node);
  visit.moduleName(c, 'key', node.name);
  if (node.value.kind !== c.kinds.StringLiteral) c.refuse(node.value, 'Import attribute values must be string literal expressions.');
  visit.string(c, 'value', node.value);
  c.close();
};

function source(c, node) {
  if (node.moduleSpecifier.kind !== c.kinds.StringLiteral) c.refuse(node.moduleSpecifier, 'String literal expected.');
  visit.string(c, 'source', node.moduleSpecifier);
  const clause = node.attributes || node.assertClause;
  if (!clause) return;
  c.open('attributes', 'WithClause', clause);
  each(c, 'entries', clause.elements, 'attribute');
  c.close();
}

visit.importSpecifier = (c, role, node) => {
  c.open(role, 'ImportSpecifier', node, '', typeMark(node));
  visit.moduleName(c, 'imported', node.propertyName || node.name);
  visit.bindingName(c, 'local', node.name);
  c.close();
};

function local(c, kind, node, name) {
  c.open('specifiers', kind, node);
  visit.bindingName(c, 'local', name);
  c.close();
}

// An import of a phase, as newer compilers read it, has no kind in the tree.
function refusePhase(c, clause) {
  const word = clause.phaseModifier;
  if (word !== undefined && word !== c.kinds.TypeKeyword) c.refuse(clause, `the tree has no kind for \`import ${c.ts.tokenToString(word)}\``);
}

function importClause(c, clause) {
  refusePhase(c, clause);
  if (clause.name) local(c, 'ImportDefaultSpecifier', clause.name, clause.name);
  const bindings = clause.namedBindings;
  if (!bindings) return;
  if (bindings.kind === c.kinds.NamespaceImport) local(c, 'ImportNamespaceSpecifier', bindings, bindings.name);
  else each(c, 'specifiers', bindings.elements, 'importSpecifier');
}

function importDeclaration(c, role, node) {
  modifierMarks(c, node, []);
  c.open(role, 'ImportDeclaration', node, '', typeMark(node.importClause));
  if (node.importClause) importClause(c, node.importClause);
  source(c, node);
  c.close();
}

function exportSpecifier(c, node, fromModule) {
  const name = node.propertyName || node.name;
  c.open('specifiers', 'ExportSpecifier', node, '', typeMark(node));
  if (fromModule || name.kind !== c.kinds.Identifier) visit.moduleName(c, 'local', name);
  else visit.reference(c, 'local', name);
  visit.moduleName(c, 'exported', node.name);
  c.close();
}

function exportDeclaration(c, role, node) {
  const clause = node.exportClause;
  modifierMarks(c, node, []);
  if (!clause || clause.kind === c.kinds.NamespaceExport) {
    c.open(role, 'ExportAllDeclaration', node, '', typeMark(node));
    if (clause) visit.moduleName(c, 'exported', clause.name);
    source(c, node);
  } else {
    const from = node.moduleSpecifier !== undefined;
    c.open(role, from ? 'ExportFromDeclaration' : 'ExportNamedDeclaration', node, '', typeMark(node));
    for (const specifier of clause.elements) exportSpecifier(c, specifier, from);
    if (from) source(c, node);
  }
  c.close();
}

function exportAssignment(c, role, node) {
  const kind = node.isExportEquals ? 'TSExportAssignment' : 'ExportDefaultDeclaration';
  modifierMarks(c, node, []);
  c.annotations.passOn(c.start(node), c.start(node.expression));
  c.open(role, kind, node);
  visit.expression(c, node.isExportEquals ? 'expression' : 'declaration', node.expression);
  c.close();
}

function namespaceExport(c, role, node) {
  c.open(role, 'TSNamespaceExportDeclaration', node);
  visit.name(c, 'id', node.name);
  c.close();
}

function externalReference(c, role, node) {
  if (!node.expression || node.expression.kind !== c.kinds.StringLiteral) c.refuse(node, 'String literal expected.');
  c.open(role, 'TSExternalModuleReference', node);
  visit.string(c, 'expression', node.expression);
  c.close();
}
const importTarget = byKind({
  ExternalModuleReference: externalReference,
  Identifier: visit.reference,
  QualifiedName: visit.entity,
}, 'imported');

Object.assign(STATEMENTS, {
  ImportDeclaration: importDeclaration,
  ExportDeclaration: exportDeclaration,
  ExportAssignment: exportAssignment,
  NamespaceExportDeclaration: namespaceExport,
});

DECLARATIONS.ImportEqualsDeclaration = (c, role, node, start) => {
  modifierMarks(c, node, []);
  c.openAt(role, 'TSImportEqualsDeclaration', start, node.end, '', typeMark(node));
  visit.bindingName(c, 'id', node.name);
  importTarget(c, 'reference', node.moduleReference);
  c.close();
};
