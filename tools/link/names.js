'use strict';
// The names that declarations bind.

// From a declaration to its names: through the parts of patterns, not into values, types and bodies.
const BINDING_ROLES = new Set(['id', 'declarators', 'properties', 'value', 'elements', 'rest', 'argument', 'left', 'pattern']);

// What has names of its own below it.
const CLOSED = new Set(['Function', 'ArrowFunctionExpression', 'Class', 'TSNamespaceDeclaration', 'TSGlobalDeclaration',
  'TSExternalModuleDeclaration']);

// The nodes that bind the names of a declaration, or of a pattern.
function boundNames(rows, declaration) {
  const names = [];
  let at = declaration + 1;
  while (at < rows.ends[declaration]) {
    if (!BINDING_ROLES.has(rows.role(at))) {
      at = rows.ends[at];
      continue;
    }
    if (rows.kind(at) === 'BindingIdentifier') {
      names.push(at);
      at = rows.ends[at];
    } else {
      at += 1;
    }
  }
  return names;
}

// The nodes that bind names by `var` in a statement, at any depth outside of functions.
function variableNames(rows, statement) {
  const names = [];
  let at = statement;
  while (at < rows.ends[statement]) {
    if (CLOSED.has(rows.kind(at))) {
      at = rows.ends[at];
      continue;
    }
    if (rows.kind(at) === 'VariableDeclaration' && rows.text(at) === 'var') {
      names.push(...boundNames(rows, at));
    }
    at += 1;
  }
  return names;
}

module.exports = { boundNames, variableNames };
