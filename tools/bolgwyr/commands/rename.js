'use strict';
// bolgwyr rename: another name for a variable, function, class, import or type.

const { behind } = require('../help.js');
const { addChoices } = require('./sources.js');

const RENAMING = `PLACE is FILE:LINE:COLUMN of a declaration or a use, both from 1, or FILE:NAME where just one symbol has the name.
Without --write a unified diff is shown. A renaming after which any name would mean something else is refused, with what is in the way.`;

const EXAMPLES = [
  ['bolgwyr rename sum.mjs:3:5 count', 'what would change'],
  ['bolgwyr rename --write sum.mjs:total count', 'in the file'],
  ['bolgwyr rename parse.mjs:parse number --project src', 'in all modules that import it, too'],
];

const RENAME_STATUSES = "Status: 0 renamed; 1 refused; 2 words that aren't known; 3 something could not be read, run or written.";

function add(program, name) {
  addChoices(program.command(name)
    .description('Give a variable, function, class, import or type another name')
    .argument('<place>', 'FILE:LINE:COLUMN or FILE:NAME')
    .argument('<name>', 'the new name')
    .option('--write', 'write the file')
    .option('--json', 'one object: the edits with bytes, lines and columns')
    .option('--project <entry...>', 'rename what a module exports in all modules that these files reach, and in all files of these folders'))
    .allowExcessArguments(false)
    .addHelpText('after', behind(RENAMING, EXAMPLES, RENAME_STATUSES))
    .action((place, to, options, command) => require('../../rename/command.js').run(place, to, command.optsWithGlobals()));
}

module.exports = { add };
