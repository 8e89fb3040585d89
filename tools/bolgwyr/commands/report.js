'use strict';
// bolgwyr report: what the report program says of a source file, as it says it.

const { STATUS } = require('../faults.js');
const { STATUSES, behind } = require('../help.js');
const { writeOf } = require('./one-file.js');
const { addReading, addTables, reportWords } = require('./sources.js');

const EXAMPLES = [
  ['bolgwyr report sum.mjs'],
  ['bolgwyr report --check --stats lib.ts'],
  ['bolgwyr report --tree - < samples/function.json'],
];

const LINES = 'docs/programs.md says what each line tells.';

function reportBytes(file, name, options) {
  const { analyseFile } = require('../../analyse/analysis.js');
  const { parser, goal, tree } = options;
  const { bytes, diagnosed } = analyseFile(file, { file: name, words: reportWords(options), parser, goal, tree });
  return { bytes, status: diagnosed ? STATUS.FOUND : STATUS.CLEAN };
}

function add(program, name) {
  const command = program.command(name)
    .description("Write the report program's own text on a source file")
    .argument('<file>', 'the source file; - is standard input');
  addReading(addTables(command))
    .addHelpText('after', behind(EXAMPLES, LINES, STATUSES))
    .action((file, options) => writeOf(file, options, (named) => reportBytes(file, named, options)));
}

module.exports = { add };
