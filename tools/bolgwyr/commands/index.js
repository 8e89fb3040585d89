'use strict';
// The commands, in the order in which help tells them. `add(program, name)` adds a command to commander's program; its action sets
// process.exitCode, or throws a UsageFault or a RunFault.

// A command's module is loaded when the command is added, which takes as long as the command itself where it is a large one.
const lazily = (file) => (program, name) => require(file).add(program, name);

const COMMANDS = [
  { name: 'check', add: lazily('./check.js') },
  { name: 'rename', add: lazily('./rename.js') },
  { name: 'link', add: lazily('./link.js') },
  { name: 'mangle', add: lazily('./mangle.js') },
  { name: 'lsp', add: lazily('./lsp.js') },
  { name: 'tables', add: lazily('./tables.js') },
  { name: 'scopes', add: lazily('./scopes.js') },
  { name: 'lint-names', add: lazily('./lint-names.js') },
  { name: 'report', add: lazily('./report.js') },
  { name: 'tree', add: lazily('./tree.js') },
  { name: 'prove', add: lazily('./prove.js') },
];

module.exports = { COMMANDS };
