'use strict';
// bolgwyr prove: proves the programs of the crates and builds the proved ones.

const { load } = require('../../source-to-tree/load.js');
const { CRATES, prove } = require('../../programs/index.js');
const { behind } = require('../help.js');

const WORK = `It works in the repository alone, by the kit that rt belongs to, and tells on standard error how far it is. What was
broken off goes on where it was: a crate that is proved stays proved until its files or those below it change.`;

const EXAMPLES = [
  ['bolgwyr prove', 'both programs'],
  ['bolgwyr prove tools_main', 'the program that all commands ask'],
];

const PROVE_STATUSES = "Status: 0 proved; 2 words that aren't known; 3 not proved.";

function add(program, name) {
  const { Argument } = load('commander');
  program.command(name)
    .description('Prove the programs, which takes tens of minutes, and build the proved ones')
    .addArgument(new Argument('[programs...]', 'both where none is named').choices(CRATES))
    .addHelpText('after', behind(WORK, EXAMPLES, PROVE_STATUSES))
    .action((crates) => prove(crates.length > 0 ? crates : CRATES));
}

module.exports = { add };
