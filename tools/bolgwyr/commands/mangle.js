'use strict';
// bolgwyr mangle: short local names in source files.

const { behind } = require('../help.js');
const { addReading } = require('./sources.js');

const NAMES = `Local names get short, where nobody else sees them: no exports, no properties, and no variables of a script without
--toplevel. All else stays as it is. A file with a name that can't be followed is left as it is, with the reason and its place.`;

const EXAMPLES = [
  ['bolgwyr mangle sum.mjs', 'on standard output'],
  ['bolgwyr mangle -o short --source-map src/*.js', 'short/src/.., each with its source map'],
  ['bolgwyr mangle sum.mjs | terser --module', 'and no spaces either'],
];

const MANGLE_STATUSES = `Status: 0 mangled; 1 a file is left as it is; 2 words that aren't known; 3 something could not be read, run
or written.`;

function add(program, name) {
  const command = program.command(name)
    .description('Give local names short names, by a mangler that is proved')
    .argument('<file...>', 'source files; - is standard input')
    .option('--write', 'write the files')
    .option('-o, --out <folder>', 'write to this folder, by the names of the files')
    .option('--toplevel', "the variables of a script's top level, too")
    .option('--source-map', 'with --write or -o: a source map beside each file that is written');
  addReading(command)
    .addHelpText('after', behind(NAMES, EXAMPLES, MANGLE_STATUSES))
    .action((files, options, self) => require('../../mangle/command.js').run(files, self.optsWithGlobals()));
}

module.exports = { add };
