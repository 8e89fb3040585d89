'use strict';
// Uses of a module as a whole, by `import * as n` and the like: whether they may use an exported name.

const { KIND, ROLE, TEXT } = require('../edits/rows.js');
const { RenameRefusal } = require('./refusal.js');

// What takes one property of a namespace: the role of the namespace, and of the property.
const MEMBERS = {
  StaticMemberExpression: ['object', 'property'],
  MemberExpression: ['object', 'property'],
  TSQualifiedName: ['left', 'right'],
  JSXMemberExpression: ['object', 'property'],
};

// The name of the property that is taken of the namespace at a row, or null where it isn't just one that is told.
function propertyTaken({ rows, parents }, node) {
  const above = parents[node];
  const roles = MEMBERS[rows[above][KIND]];
  const property = rows[node + 1];
  if (roles === undefined || rows[node][ROLE] !== roles[0] || property === undefined || property[ROLE] !== roles[1]) {
    return null;
  }
  return property[KIND] === 'IdentifierName' || property[KIND] === 'JSXIdentifier' ? property[TEXT] : null;
}

function refuseNamespace(analysis, local, name) {
  const symbol = analysis.report.symbols.find((one) => one.name === local && one.scope === 0);
  for (const node of analysis.occurrencesOf(symbol).filter((at) => analysis.referenceAt.has(at))) {
    const taken = propertyTaken(analysis, node);
    if (taken === null) {
      throw new RenameRefusal(`what is used of the namespace \`${local}\` here isn't known`, analysis.spanOf(node));
    }
    if (taken === name) {
      throw new RenameRefusal(`\`${local}.${name}\` here is a property of a namespace, which isn't renamed`, analysis.spanOf(node));
    }
  }
}

// Refuses a use of the whole module which may use the name.
function refuseWhole(analysis, { wanted, specifier }, name) {
  if (wanted === undefined) {
    throw new RenameRefusal(`what is used of this module isn't known, and it exports \`${name}\``, specifier.span);
  }
  refuseNamespace(analysis, wanted.local, name);
}

module.exports = { refuseWhole };
