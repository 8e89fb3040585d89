'use strict';
// Declarations of TypeScript: aliases, interfaces, enums, namespaces and modules.

const { visit, each, byKind } = require('./visit');
const { modifierMarks } = require('./modifiers');
const { isComputed } = require('./patterns');
const { heritage } = require('./classes');
const { DECLARATIONS } = require('./statements');

const typeParameters = (c, node) => each(c, 'typeParameters', node.typeParameters && [node.typeParameters], 'typeParameters');

DECLARATIONS.TypeAliasDeclaration = (c, role, node, start) => {
  c.openAt(role, 'TSTypeAliasDeclaration', start, node.end, '', modifierMarks(c, node, ['declare']));
  visit.bindingName(c, 'id', node.name);
  typeParameters(c, node);
  visit.type(c, 'valueType', node.type);
  c.close();
};

// A name of a type that a class or interface is made from.
visit.heritage = (c, role, kind, node) => {
  const isName = node.kind === c.kinds.ExpressionWithTypeArguments;
  c.open(role, kind, node);
  visit.entity(c, 'name', isName ? node.expression : node);
  each(c, 'typeArguments', node.typeArguments && [node.typeArguments], 'typeArguments');
  c.close();
};

DECLARATIONS.InterfaceDeclaration = (c, role, node, start) => {
  c.openAt(role, 'TSInterfaceDeclaration', start, node.end, '', modifierMarks(c, node, ['declare']));
  visit.bindingName(c, 'id', node.name);
  typeParameters(c, node);
  for (const type of heritage(c, node, 'ExtendsKeyword')) visit.heritage(c, 'extends', 'TSInterfaceHeritage', type);
  c.openAt('body', 'TSInterfaceBody', node.members.pos - 1, node.end);
  each(c, 'body', node.members, 'typeMember');
  c.close();
  c.close();
};

const COMPUTED_NAMES = new Set(['StringLiteral', 'NoSubstitutionTemplateLiteral']);

function enumName(c, node) {
  const name = node.kind === c.kinds.ComputedPropertyName ? node.expression : node;
  const isName = COMPUTED_NAMES.has(c.kindName(name)) || (name === node && name.kind === c.kinds.Identifier);
  if (!isName) c.refuse(node, name === node ? 'An enum member cannot have a numeric name.' : 'Computed property names are not allowed in enums.');
  if (name === node) visit.moduleName(c, 'id', name);
  else visit.expression(c, 'id', name);
}

function enumMember(c, role, node) {
  c.open(role, 'TSEnumMember', node, '', isComputed(c, node.name) ? ['computed'] : []);
  enumName(c, node.name);
  each(c, 'initializer', node.initializer, 'expression');
  c.close();
}

DECLARATIONS.EnumDeclaration = (c, role, node, start) => {
  c.openAt(role, 'TSEnumDeclaration', start, node.end, '', modifierMarks(c, node, ['declare', 'const']));
  visit.bindingName(c, 'id', node.name);
  c.openAt('body', 'TSEnumBody', node.members.pos - 1, node.end);
  for (const member of node.members) enumMember(c, 'members', member);
  c.close();
  c.close();
};

visit.moduleBlock = (c, role, node) => {
  c.open(role, 'TSModuleBlock', node);
  visit.body(c, node.statements);
  c.close();
};

visit.namespaceBody = byKind({
  ModuleBlock: visit.moduleBlock,
  ModuleDeclaration: (c, role, node) => DECLARATIONS.ModuleDeclaration(c, role, node, c.start(node)),
}, 'the body of a namespace');

DECLARATIONS.ModuleDeclaration = (c, role, node, start) => {
  const marks = modifierMarks(c, node, ['declare']);
  const open = (kind) => c.openAt(role, kind, start, node.end, '', marks);
  if (node.flags & c.ts.NodeFlags.GlobalAugmentation) {
    open('TSGlobalDeclaration');
    visit.moduleBlock(c, 'body', node.body);
  } else if (node.name.kind === c.kinds.StringLiteral) {
    open('TSExternalModuleDeclaration');
    visit.string(c, 'id', node.name);
    each(c, 'body', node.body, 'moduleBlock');
  } else {
    open('TSNamespaceDeclaration');
    visit.bindingName(c, 'id', node.name);
    if (!node.body) c.refuse(node, "'{' expected.");
    visit.namespaceBody(c, 'body', node.body);
  }
  c.close();
};
