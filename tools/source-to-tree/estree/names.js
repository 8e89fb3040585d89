'use strict';
// Identifiers, by what they are where they stand, and the keys of members.

const { kindOf } = require('../kinds');
const { visit, byType } = require('./visit');

function identifier(name) {
  const kind = kindOf(name);
  return (c, role, node) => {
    if (node.type !== 'Identifier') c.refuse(node, `${node.type} can't be a name`);
    const annotated = node.typeAnnotation || node.optional;
    c.spelled(role, kind, node.start, annotated ? c.nameEnd(node.start) : node.end, 0, node.name);
  };
}

visit.bindingName = identifier('BindingIdentifier');
visit.reference = identifier('IdentifierReference');
visit.label = identifier('LabelIdentifier');

// A plain name; a keyword or a name of JSX too.
const NAME = kindOf('IdentifierName');
visit.name = (c, role, node) => {
  if (node.typeAnnotation || node.optional) c.leaf(role, 'IdentifierName', node, node.name);
  else c.spelled(role, NAME, node.start, node.end, 0, node.name);
};

visit.privateName = (c, role, node) => c.leaf(role, 'PrivateIdentifier', node, node.name || node.id.name);

const MODULE_NAMES = {
  Identifier: visit.name,
  Literal: (c, role, node) => visit.literal(c, role, node),
  StringLiteral: (c, role, node) => visit.literal(c, role, node),
};
visit.moduleName = byType(MODULE_NAMES, 'a name of a module');

// The key of a member: an expression where computed.
visit.key = (c, role, node, computed) => {
  if (computed) visit.expression(c, role, node);
  else if (node.type === 'Identifier') visit.name(c, role, node);
  else if (node.type === 'PrivateIdentifier' || node.type === 'PrivateName') visit.privateName(c, role, node);
  else visit.expression(c, role, node);
};
