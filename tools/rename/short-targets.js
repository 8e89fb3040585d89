'use strict';
// Properties in short that are assigned to, `({ a } = o)`, as rows written out: `({ a: a } = o)`.

const { DEPTH, KIND, MARKS, ROLE } = require('../edits/rows.js');

const SHORT = 'AssignmentTargetPropertyIdentifier';

const asPart = (row, role, deeper) => row.map((part, at) => (at === ROLE ? role : at === DEPTH ? part + deeper : part));

function opened(row) {
  const property = row.slice();
  property[KIND] = 'AssignmentTargetPropertyProperty';
  property[MARKS] = [];
  return property;
}

function keyOf(binding) {
  const key = asPart(binding, 'key', 0);
  key[KIND] = 'IdentifierName';
  return key;
}

function defaulted(row) {
  const target = asPart(row, 'binding', 1);
  target[KIND] = 'AssignmentTargetWithDefault';
  target[MARKS] = [];
  return target;
}

// The rows with these properties written out. What stands below a default gets one level deeper.
function rowsWithout({ rows, ends }, properties) {
  const written = [];
  const deeper = []; // where the properties with defaults around end
  rows.forEach((row, node) => {
    while (deeper.length > 0 && deeper[deeper.length - 1] <= node) {
      deeper.pop();
    }
    const shift = deeper.length;
    const here = asPart(row, row[ROLE], shift);
    if (!properties.has(node)) {
      written.push(here);
      return;
    }
    written.push(opened(here), keyOf(asPart(rows[node + 1], 'key', shift)));
    if (ends[node] > node + 2) {
      written.push(defaulted(here));
      deeper.push(ends[node]);
    }
  });
  return written;
}

// The rows with the properties written out that assign to the symbol in short; the same rows where there are none.
function withoutShortTargets(analysis, symbol) {
  const { rows, parents } = analysis;
  const assigned = analysis.occurrencesOf(symbol).filter((node) => rows[parents[node]][KIND] === SHORT && rows[node][ROLE] === 'binding');
  const properties = new Set(assigned.map((node) => parents[node]));
  return properties.size === 0 ? rows : rowsWithout(analysis, properties);
}

module.exports = { withoutShortTargets };
