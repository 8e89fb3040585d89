'use strict';
// The names in specifiers of imports and exports by which modules know each other.

const { KIND, START, TEXT } = require('../edits/rows.js');

const SPECIFIERS = new Set(['ImportSpecifier', 'ExportSpecifier']);

// The rows with another name in specifiers. `asked` tells of each, by the byte where its first name begins, which of its parts get the
// name: `imported`, `local` and `exported`. A part that is a variable's name is the renamer's.
function withSpecifiers(rows, asked, name) {
  if (asked.size === 0) {
    return rows;
  }
  const renamed = rows.slice();
  rows.forEach((row, node) => {
    const parts = SPECIFIERS.has(row[KIND]) ? asked.get(rows[node + 1][START]) : undefined;
    for (const at of parts === undefined ? [] : [node + 1, node + 2]) {
      const [, role, kind] = rows[at];
      if (kind === 'IdentifierName' && parts.includes(role)) {
        renamed[at] = rows[at].slice();
        renamed[at][TEXT] = name;
      }
    }
  });
  return renamed;
}

module.exports = { withSpecifiers };
