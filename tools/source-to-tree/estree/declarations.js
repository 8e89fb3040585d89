'use strict';
// Declarations of TypeScript, as typescript-eslint and Babel give them: aliases, interfaces, enums, namespaces and modules.

const { visit, each, plain, marksOf } = require('./visit');
const { STATEMENTS, addDeclarations } = require('./statements');

function enumMember(c, role, node) {
  c.open(role, 'TSEnumMember', node, '', marksOf({ computed: node.computed }));
  if (node.id.type === 'TemplateLiteral') visit.template(c, 'id', node.id);
  else visit.moduleName(c, 'id', node.id);
  each(c, 'initializer', node.initializer, 'expression');
  c.close();
}
visit.enumMember = enumMember;

// Older dialects have no node for the body of an enum.
function enumBody(c, node) {
  const body = node.body || node;
  const [first] = body.members;
  const start = node.body ? c.start(body) : c.text.lastIndexOf('{', first ? c.start(first) : c.end(node));
  c.openAt('body', 'TSEnumBody', start, c.end(node));
  each(c, 'members', body.members, 'enumMember');
  c.close();
}

function moduleBlock(c, role, node) {
  c.open(role, 'TSModuleBlock', node);
  visit.body(c, node);
  c.close();
}
visit.moduleBlock = moduleBlock;

// A name with dots is one namespace in another, also where the dialect has them as one qualified name.
function namespace(c, role, node, names, start) {
  c.openAt(role, 'TSNamespaceDeclaration', start, c.end(node), '', marksOf({ declare: node.declare }));
  visit.bindingName(c, 'id', names[0]);
  if (names.length > 1) namespace(c, 'body', { ...node, declare: false }, names.slice(1), c.start(names[1]));
  else if (node.body.type === 'TSModuleBlock') moduleBlock(c, 'body', node.body);
  else namespace(c, 'body', node.body, namesIn(node.body.id), c.start(node.body));
  c.close();
}

function namesIn(id) {
  return id.type === 'TSQualifiedName' ? [...namesIn(id.left), id.right] : [id];
}

function moduleDeclaration(c, role, node) {
  const marks = marksOf({ declare: node.declare });
  if (node.global || node.kind === 'global') {
    c.open(role, 'TSGlobalDeclaration', node, '', marks);
    moduleBlock(c, 'body', node.body);
    c.close();
  } else if (node.id.type === 'Identifier' || node.id.type === 'TSQualifiedName') {
    namespace(c, role, node, namesIn(node.id), c.start(node));
  } else {
    c.open(role, 'TSExternalModuleDeclaration', node, '', marks);
    visit.literal(c, 'id', node.id);
    each(c, 'body', node.body, 'moduleBlock');
    c.close();
  }
}

function importEquals(c, role, node) {
  c.open(role, 'TSImportEqualsDeclaration', node, '', marksOf({ type: node.importKind === 'type' }));
  visit.bindingName(c, 'id', node.id);
  if (node.moduleReference.type === 'TSExternalModuleReference') {
    c.open('reference', 'TSExternalModuleReference', node.moduleReference);
    visit.literal(c, 'expression', node.moduleReference.expression);
    c.close();
  } else {
    visit.entity(c, 'reference', node.moduleReference);
  }
  c.close();
}

addDeclarations({
  TSTypeAliasDeclaration(c, role, node) {
    c.open(role, 'TSTypeAliasDeclaration', node, '', marksOf({ declare: node.declare }));
    visit.bindingName(c, 'id', node.id);
    each(c, 'typeParameters', node.typeParameters, 'typeParameters');
    visit.type(c, 'valueType', node.typeAnnotation);
    c.close();
  },
  TSInterfaceDeclaration(c, role, node) {
    c.open(role, 'TSInterfaceDeclaration', node, '', marksOf({ declare: node.declare }));
    visit.bindingName(c, 'id', node.id);
    each(c, 'typeParameters', node.typeParameters, 'typeParameters');
    each(c, 'extends', node.extends, 'interfaceHeritage');
    c.open('body', 'TSInterfaceBody', node.body);
    each(c, 'body', node.body.body, 'typeMember');
    c.close();
    c.close();
  },
  TSEnumDeclaration(c, role, node) {
    c.open(role, 'TSEnumDeclaration', node, '', marksOf({ declare: node.declare, const: node.const }));
    visit.bindingName(c, 'id', node.id);
    enumBody(c, node);
    c.close();
  },
  TSModuleDeclaration: moduleDeclaration,
  // Babel tells an exported one by a field.
  TSImportEqualsDeclaration(c, role, node) {
    if (!node.isExport) return importEquals(c, role, node);
    const inner = { ...node, start: c.text.indexOf('import', c.start(node)), isExport: false };
    c.open(role, 'ExportDeclaration', node);
    importEquals(c, 'declaration', inner);
    c.close();
  },
});
Object.assign(STATEMENTS, {
  TSExportAssignment: plain('TSExportAssignment', { expression: 'expression' }),
  TSNamespaceExportDeclaration(c, role, node) {
    c.open(role, 'TSNamespaceExportDeclaration', node);
    visit.name(c, 'id', node.id);
    c.close();
  },
});
