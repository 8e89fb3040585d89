'use strict';
// Words that commands on source files share.

const { GOALS, PARSERS } = require('../../source-to-tree/choices.js');
const { load } = require('../../source-to-tree/load.js');

// Adds what is chosen in place of what a file's name tells.
function addChoices(command) {
  const { Option } = load('commander');
  return command
    .addOption(new Option('--parser <parser>', "in place of what a file's name tells").choices(PARSERS))
    .addOption(new Option('--goal <goal>', "in place of what a file's name tells").choices(GOALS));
}

// Adds how a source file is read.
function addReading(command) {
  return addChoices(command.option('--stdin-name <file>', 'the name that standard input goes by, which tells its language and goal'));
}

// Adds what goes on to the report program.
function addTables(command) {
  return command
    .option('--check', 'early errors, too: diagnostics besides the names that are declared again')
    .option('--nodes', 'the nodes of the tree')
    .option('--classes', 'the elements of classes, and the uses of private names')
    .option('--stats', 'how many nodes, scopes, symbols and references there are')
    .option('--tree', 'the files hold trees already, as JSON');
}

// The words for the report program.
function reportWords(options) {
  return ['check', 'nodes', 'classes', 'stats'].filter((name) => options[name]).map((name) => `--${name}`);
}

// Standard input goes by the name that it was given.
const nameOf = (file, options) => (file === '-' ? options.stdinName ?? '-' : file);

module.exports = { addChoices, addReading, addTables, nameOf, reportWords };
