'use strict';
// New names: fresh ones, names that the text has already, and words that the language keeps.

const { isIdentifier } = require('../rename/identifier.js');
const { TEXT } = require('../edits/rows.js');

const FRESH = ['renamed', '_', '$1', 'étage', '变量', '𝒳', 'x\u200d'];
const KEPT = ['await', 'yield', 'let', 'static', 'arguments', 'eval', 'async', 'of', 'get', 'undefined', 'NaN', '__proto__', 'class', 'this',
  'type', 'as', 'from', 'string', 'any', 'implements', 'constructor', 'prototype', 'require', 'exports', 'module', 'null', 'enum', 'default'];

const pick = (list, random) => list[random(list.length)];

// The identifiers of a tree: of variables, properties, labels, whatever.
function textsOf(analysis) {
  return analysis.once('texts', () => [...new Set(analysis.rows.map((row) => row[TEXT]))].filter(isIdentifier));
}

const WAYS = {
  fresh: (analysis, random) => `${pick(FRESH, random)}${random(1000)}`,
  'of the text': (analysis, random) => pick(textsOf(analysis), random),
  'of a symbol': (analysis, random) => pick(analysis.report.symbols, random).name,
  kept: (analysis, random) => pick(KEPT, random),
};

function randomName(analysis, random) {
  const way = pick(Object.keys(WAYS), random);
  const name = WAYS[way](analysis, random);
  return { way, name };
}

module.exports = { randomName };
