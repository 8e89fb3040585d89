'use strict';
// One line for each finding, as compilers tell theirs.

const { printable } = require('../../analyse/refusal.js');
const { visible } = require('../../analyse/visible.js');

function format(results) {
  return results.flatMap(({ file, findings }) => findings.map(({ line, column, message, severity, rule }) => {
    return `${printable(file)}:${line}:${column}: ${visible(message)} [${severity}/${rule}]\n`;
  })).join('');
}

module.exports = { format };
