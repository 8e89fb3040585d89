'use strict';
// The texts that warm the converter up: acorn reads them whole, and they have each kind of node that the small sources have.

const { treeOf } = require('../source-to-tree/convert');
const { TEXTS, textOf } = require('../source-to-tree/warm-up');
const { JS } = require('./cases');

const IS_PLAIN = /\.[cm]?js$/;

const kindsIn = (source, options) => JSON.parse(treeOf(source, { parser: 'acorn', ...options }).json).rows.map((row) => row[2]);

// The kinds of a small source; those of what acorn refuses, or reads as JSX, don't count.
function kindsOfCase([, filename, source]) {
  try {
    return IS_PLAIN.test(filename) ? kindsIn(source, { filename }).filter((kind) => !kind.startsWith('JSX')) : [];
  } catch {
    return [];
  }
}

function checkWarmUp(tally) {
  const met = new Set(TEXTS.flatMap(([file, goal]) => kindsIn(textOf(file), { filename: 'text.js', goal })));
  const lacking = [...new Set(JS.flatMap(kindsOfCase))].filter((kind) => !met.has(kind));
  tally.check('texts that warm up have all kinds', lacking.length === 0, lacking.join(', '));
}

module.exports = { checkWarmUp };
