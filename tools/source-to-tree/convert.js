'use strict';
// From the text of a source file to the JSON of its tree.

const { Refusal } = require('./refusal');
const { convertOnce, isOverflow } = require('./once');

// The tree of a text as JSON. Options: `filename`, which tells language and goal; `parser` and `goal` in place of what it
// tells; `tree`, the ESTree that another tool made; `clock`, which gets the milliseconds of each part. Throws a Refusal.
function treeOf(source, options) {
  try {
    return convertOnce(source, options);
  } catch (error) {
    if (!isOverflow(error)) throw error;
    return require('./stack').withLargeStack(source, options);
  }
}

module.exports = { treeOf, Refusal };
