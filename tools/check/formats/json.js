'use strict';
// For programs: an object for each file, one a line, in a list.

function objectOf({ file, findings, failure }) {
  return JSON.stringify({ file, ...(failure !== undefined && { failure }), findings });
}

function format(results) {
  return `[${results.map(objectOf).join(',\n')}]\n`;
}

module.exports = { format };
