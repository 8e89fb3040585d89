'use strict';
// bolgwyr tree: the tree of a source file, as the programs read it.

const { STATUS } = require('../faults.js');
const { behind } = require('../help.js');
const { writeOf } = require('./one-file.js');
const { addReading } = require('./sources.js');

const EXAMPLES = [
  ['bolgwyr tree sum.mjs > sum.json'],
  ['bolgwyr tree --stdin-name sum.mts - < sum.mts | bolgwyr report --tree -'],
];

const TREE_STATUSES = `Status: 0 the tree is written; 1 no parser reads the file; 2 words that aren't known; 3 something could not be
read.`;

function treeBytes(file, name, { parser, goal }) {
  const { readText } = require('../../analyse/files.js');
  const { convertText } = require('../../analyse/tree.js');
  return { bytes: convertText(readText(file), { file: name, parser, goal }).json, status: STATUS.CLEAN };
}

function add(program, name) {
  const command = program.command(name)
    .description('Write the tree of a source file as JSON, which the programs read')
    .argument('<file>', 'the source file; - is standard input');
  addReading(command)
    .addHelpText('after', behind(EXAMPLES, TREE_STATUSES))
    .action((file, options) => writeOf(file, options, (named) => treeBytes(file, named, options)));
}

module.exports = { add };
