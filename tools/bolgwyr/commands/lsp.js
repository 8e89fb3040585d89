'use strict';
// bolgwyr lsp: a language server for editors.

const { load } = require('../../source-to-tree/load.js');
const { behind } = require('../help.js');

const EDITORS = `An editor starts it, and talks with it by the Language Server Protocol: diagnostics as bolgwyr check tells them,
definition, references, highlights, rename, outline, hover and code actions. docs/editors.md tells how editors are set up.`;

const LSP_STATUSES = `Status: 0 after shutdown and exit; 1 after an exit or an end of the input without shutdown; 2 words that
aren't known.`;

function add(program, name) {
  const { Option } = load('commander');
  program.command(name)
    .description('A language server for editors, on standard input and output')
    .option('--stdio', 'on standard input and output, as it always is')
    .option('--log', 'tell on standard error what is asked and how long it takes')
    .addOption(new Option('--clientProcessId <id>', 'what some clients add').hideHelp())
    .allowExcessArguments(false)
    .addHelpText('after', behind(EDITORS, LSP_STATUSES))
    .action(async (options) => {
      process.exit(await require('../../lsp/run.js').run(options));
    });
}

module.exports = { add };
