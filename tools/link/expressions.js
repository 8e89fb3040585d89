'use strict';
// The modules that expressions and types name: `import("./a.js")`, `require("./a.js")`, `import x = require("./a")` and, in
// types, `import("./a").T`.

// What a module of CommonJS is known by.
const COMMON_NAMES = new Set(['module', 'exports', 'require', 'define']);

const isLiteral = (rows, node) => node !== undefined && rows.kind(node) === 'StringLiteral';

// A literal that is the first argument of a call of `require`.
function requiredBy(rows, call) {
  const [callee, argument] = rows.children(call);
  const isRequire = rows.kind(callee) === 'IdentifierReference' && rows.text(callee) === 'require';
  return isRequire && isLiteral(rows, argument) && rows.role(argument) === 'arguments' ? argument : undefined;
}

// How each kind of node names a module: its literal, and the way in which it is named.
const NAMING = {
  ImportExpression: (rows, at) => [rows.children(at)[0], 'dynamic', false],
  CallExpression: (rows, at) => [requiredBy(rows, at), 'require', false],
  TSExternalModuleReference: (rows, at) => [rows.children(at)[0], 'require', true],
  TSImportType: (rows, at) => [rows.children(at)[0], 'import', true],
};

function notice(noted, kind, text) {
  if (kind === 'BindingIdentifier') {
    noted.bindsRequire = noted.bindsRequire || text === 'require';
  } else if (kind === 'IdentifierReference') {
    noted.namesCommon = noted.namesCommon || COMMON_NAMES.has(text);
    noted.makesRequire = noted.makesRequire || text === 'createRequire';
  }
}

// Calls `add(literal, way, typed)` for each, and notes in the outline whether the file looks like a module of CommonJS. A
// `require` that the file binds itself may be any function, but for one that createRequire made.
function findExpressions(rows, add, outline) {
  const noted = { bindsRequire: false, makesRequire: false, namesCommon: false };
  const found = [];
  for (let at = 1; at < rows.length; at += 1) {
    const kind = rows.kind(at);
    notice(noted, kind, rows.text(at));
    if (Object.hasOwn(NAMING, kind)) {
      const naming = NAMING[kind](rows, at);
      if (isLiteral(rows, naming[0])) {
        found.push(naming);
      }
    }
  }
  outline.looksCommon = noted.namesCommon;
  const anyRequire = noted.bindsRequire && !noted.makesRequire;
  for (const [literal, way, typed] of found) {
    if (way !== 'require' || typed || !anyRequire) {
      add(literal, way, typed);
    }
  }
}

module.exports = { findExpressions };
