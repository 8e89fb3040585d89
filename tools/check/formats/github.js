'use strict';
// Commands of GitHub's workflows, which show findings beside the lines of a change.

// What separates the parts of a command is spelt in its values.
const PART = /[%\r\n:,]/g;
const TEXT = /[%\r\n]/g;

const spelt = (sign) => `%${sign.charCodeAt(0).toString(16).toUpperCase().padStart(2, '0')}`;

function command(file, { severity, line, column, endLine, endColumn, rule, message }) {
  const parts = { file, line, col: column, endLine, ...(endLine === line && { endColumn }), title: rule };
  const words = Object.entries(parts).map(([name, value]) => `${name}=${String(value).replace(PART, spelt)}`);
  return `::${severity === 'error' ? 'error' : 'warning'} ${words.join(',')}::${message.replace(TEXT, spelt)}\n`;
}

function format(results) {
  return results.flatMap(({ file, findings }) => findings.map((finding) => command(file, finding))).join('');
}

module.exports = { format };
