'use strict';
// bolgwyr check: findings in source files.

const { load } = require('../../source-to-tree/load.js');
const { STATUSES, behind } = require('../help.js');
const { addReading } = require('./sources.js');

const EXAMPLES = [
  ['bolgwyr check', 'all source files below this folder, but for what .gitignore leaves out'],
  ["bolgwyr check src 'test/**/*.js'", 'a folder, and what a glob finds'],
  ['bolgwyr check --project src/index.js', 'what these modules reach, and imports that lead nowhere'],
  ['bolgwyr check --rule no-unused=warn --max-warnings 10'],
  ['bolgwyr check --only no-undeclared --env browser page.js'],
  ['bolgwyr check --format sarif > findings.sarif'],
  ['git show :a.ts | bolgwyr check --stdin-name a.ts -'],
];

const RULES = `Rules: no-unused, no-undeclared, no-redeclare, early-error, unused-label, and with --project unresolved-import. A
bolgwyr.json in the folder of a file or around it sets rules, globals, env and ignore; a comment such as
bolgwyr-ignore-next-line no-unused leaves findings out.`;

const gather = (value, values = []) => [...values, value];

function add(program, name) {
  const { Option } = load('commander');
  const command = program.command(name)
    .description('Find names that nothing uses or nobody declares, redeclarations, early errors and unused labels')
    .argument('[files...]', 'files, folders and globs; - is standard input (default: this folder)')
    .addOption(new Option('--format <form>', 'how findings are told').choices(['pretty', 'unix', 'json', 'sarif', 'github']).default('pretty'))
    .option('--rule <rule=severity>', 'a rule as off, warn or error, or as JSON: ["warn",{"args":"none"}]; may be given again', gather)
    .option('--only <rules>', 'these rules alone, with commas between them')
    .option('--env <names>', 'environments whose names are known, with commas between them: browser,node')
    .option('--global <names>', 'names that are known, with commas between them; may be given again', gather)
    .option('--max-warnings <number>', 'status 1 for more warnings than these')
    .option('--quiet', 'tell errors alone, no warnings')
    .option('--no-cache', 'analyse each file anew')
    .option('--cache-folder <folder>', "where findings are kept, else the project's node_modules/.cache, else the user's cache")
    .option('--project <entry...>', 'also imports that lead nowhere, in what these files or folders reach')
    .option('--config <file>', 'this file in place of each bolgwyr.json');
  addReading(command)
    .addHelpText('after', behind(EXAMPLES, RULES, STATUSES))
    .action((files, options, command) => require('../../check/command.js').run(files, command.optsWithGlobals()));
}

module.exports = { add };
