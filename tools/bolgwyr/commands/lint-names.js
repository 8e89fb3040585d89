'use strict';
// bolgwyr lint-names: what the proved lint of names says, with lines and columns, and nothing left out.

const { STATUSES, behind } = require('../help.js');
const { addReading, nameOf } = require('./sources.js');

const LINES = `Each line is "unused" or "undeclared" of the proved lint of names: nothing that it says is left out, as check leaves out
parameters before used ones, or names of an environment.`;

const EXAMPLES = [['bolgwyr lint-names sum.mjs'], ['bolgwyr lint-names --known console,process src']];

const gather = (value, values = []) => [...values, ...value.split(',').filter((name) => name !== '')];

function add(program, name) {
  const command = program.command(name)
    .description('Run the proved lint of names: all that nothing in use uses, all that nobody declares')
    .argument('<files...>', 'files, folders and globs; - is standard input')
    .option('--known <names>', 'names that are known, with commas between them; may be given again', gather);
  addReading(command)
    .addHelpText('after', behind(LINES, EXAMPLES, STATUSES))
    .action((words, options, self) => {
      const all = { known: [], ...self.optsWithGlobals() };
      const files = require('../../check/sources.js').sourcesOf(words).map(({ file }) => ({ file, name: nameOf(file, all) }));
      process.exitCode = require('../../check/lint-names.js').lintFiles(files, all);
    });
}

module.exports = { add };
