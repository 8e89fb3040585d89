'use strict';
// Identifiers, by what they are where they stand, the keys of members, and names of types.

const { stringValue } = require('../texts');
const { visit, byKind } = require('./visit');

function identifier(kind) {
  return (c, role, node) => {
    if (node.kind !== c.kinds.Identifier) c.refuse(node, `${c.kindName(node)} can't be a name`);
    c.spelled(role, kind, node, c.ts.idText(node));
  };
}

visit.bindingName = identifier('BindingIdentifier');
visit.reference = identifier('IdentifierReference');
visit.label = identifier('LabelIdentifier');
visit.name = identifier('IdentifierName');

// The compiler leaves escapes in private names as they are spelled.
visit.privateName = (c, role, node) => {
  const raw = c.text.slice(c.start(node) + 1, node.end);
  c.leaf(role, 'PrivateIdentifier', node, raw.includes('\\') ? stringValue(raw) : raw);
};

visit.moduleName = byKind({
  Identifier: visit.name,
  StringLiteral: (c, role, node) => visit.string(c, role, node),
}, 'a name of a module');

// The key of a member; of a computed one the expression.
visit.key = byKind({
  Identifier: visit.name,
  PrivateIdentifier: visit.privateName,
  StringLiteral: (c, role, node) => visit.string(c, role, node),
  NoSubstitutionTemplateLiteral: (c, role, node) => visit.expression(c, role, node),
  NumericLiteral: (c, role, node) => visit.expression(c, role, node),
  BigIntLiteral: (c, role, node) => visit.expression(c, role, node),
  ComputedPropertyName: (c, role, node) => visit.expression(c, role, node.expression),
}, 'a key');

function qualified(left, right) {
  return (c, role, node) => {
    c.open(role, 'TSQualifiedName', node);
    visit.entity(c, 'left', node[left]);
    visit.name(c, 'right', node[right]);
    c.close();
  };
}

function referenceOrThis(c, role, node) {
  if (c.ts.idText(node) === 'this') c.leaf(role, 'ThisExpression', node);
  else visit.reference(c, role, node);
}

// The name of a type or namespace.
visit.entity = byKind({
  Identifier: referenceOrThis,
  ThisKeyword: (c, role, node) => c.leaf(role, 'ThisExpression', node),
  QualifiedName: qualified('left', 'right'),
  PropertyAccessExpression: qualified('expression', 'name'),
}, 'the name of a type');
