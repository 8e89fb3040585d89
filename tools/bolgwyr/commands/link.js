'use strict';
// bolgwyr link: every import that leads nowhere.

const { load } = require('../../source-to-tree/load.js');
const { STATUSES, behind } = require('../help.js');

const ENTRIES = `An entry is a file, or a folder: what its package.json names, or its index file, else all files below it. What it
imports is found as bundlers and TypeScript find it: relative paths, packages with their \`exports\` and \`imports\`, \`paths\` of
tsconfig.json. Of packages that aren't installed, of CommonJS and of Node's own modules nothing is known, so their names are
taken as they are.`;

const EXAMPLES = [
  ['bolgwyr link src/index.js', "what the program's first file reaches"],
  ['bolgwyr link --format unix . test/*.js', 'this package and its tests, one finding a line'],
  ['bolgwyr link --graph dot . | dot -Tsvg >g.svg', 'the graph of the modules'],
];

function add(program, name) {
  const { Option } = load('commander');
  program.command(name)
    .description('Find every import that leads nowhere, from the files where a program begins')
    .argument('<entry...>', 'files or folders')
    .addOption(new Option('--format <form>', 'how findings are told').choices(['pretty', 'unix', 'json']).default('pretty'))
    .addOption(new Option('--graph <form>', 'the graph of the modules, in place of findings').choices(['dot', 'mermaid', 'json']))
    .option('--strict', "a package that isn't installed is a finding")
    .option('--packages', 'tell also what is found in files of packages')
    .addHelpText('after', behind(ENTRIES, EXAMPLES, STATUSES))
    .action((entries, settings) => require('../../link/command.js').run(entries, settings));
}

module.exports = { add };
