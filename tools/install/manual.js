'use strict';
// Writes the manual page, bolgwyr(1), from the commands' own help.

const { programOf } = require('../bolgwyr/main.js');
const { description, version } = require('../../package.json');

const VERBATIM_WIDTH = 72; // what stands as it is, indented, in a terminal of 80 columns

// A text of the page: no letter of it is a request or an escape.
const plain = (text) => text.replace(/\\/g, '\\e').replace(/-/g, '\\-').replace(/^([.'])/gm, '\\&$1');

const term = (name, about) => `.TP\n.B ${plain(name)}\n${plain(about)}\n`;

// What stands in help behind the words, as it stands there.
function endOf(command) {
  const parts = [];
  command.configureOutput({ writeOut: (text) => parts.push(text), getOutHelpWidth: () => VERBATIM_WIDTH });
  command.outputHelp();
  const help = parts.join('');
  const begin = help.indexOf('\n\n', help.lastIndexOf('display help for command'));
  return begin === -1 ? '' : help.slice(begin).trim();
}

const verbatim = (text) => (text === '' ? '' : `.PP\n.nf\n${plain(text)}\n.fi\n`);

function commandPart(command) {
  const help = command.createHelp();
  return [
    `.SS ${plain(`bolgwyr ${command.name()} ${command.usage()}`)}\n${plain(command.description())}\n`,
    ...help.visibleArguments(command).map((it) => term(help.argumentTerm(it), help.argumentDescription(it))),
    ...help.visibleOptions(command).map((it) => term(help.optionTerm(it), help.optionDescription(it))),
    verbatim(endOf(command)),
  ].join('');
}

function page() {
  const program = programOf();
  const help = program.createHelp();
  return [
    `.TH BOLGWYR 1 "" "bolgwyr ${version}" "User Commands"\n`,
    `.SH NAME\nbolgwyr \\- ${plain(description)}\n`,
    '.SH SYNOPSIS\n.B bolgwyr\n[options] command [words]\n',
    `.SH DESCRIPTION\n${plain(program.description())}\n`,
    `.SH OPTIONS\n${help.visibleOptions(program).map((it) => term(help.optionTerm(it), help.optionDescription(it))).join('')}`,
    `.SH COMMANDS\n${program.commands.map(commandPart).join('')}`,
    '.SH ENVIRONMENT\n',
    term('BOLGWYR_PROGRAMS', "a folder of programs, report_main and tools_main, that are run in the place of bolgwyr's own"),
    term('BOLGWYR_REPORT', 'a report program that is run in the place of the one that bolgwyr would take'),
    '.SH SEE ALSO\nThe documents of bolgwyr stand in share/doc/bolgwyr of the folder that it is installed in.\n',
  ].join('');
}

process.stdout.write(page());
