#!/usr/bin/env node
'use strict';
// bolgwyr: one command, with a module for each of its commands in commands/.

const { load } = require('../source-to-tree/load.js');
const { say, tell } = require('../analyse/output.js');
const { COMMANDS } = require('./commands/index.js');
const { STATUS } = require('./faults.js');
const { FOLDED_DESCRIPTION, STATUSES, behind } = require('./help.js');

function tellVersion() {
  say(require('./version.js').versionText());
  const { CommanderError } = load('commander');
  throw new CommanderError(0, 'commander.version', '');
}

// The command that is asked for; all of them where help or nothing that is known is.
function commandsFor([word]) {
  const named = COMMANDS.filter(({ name }) => name === word);
  return named.length === 0 ? COMMANDS : named;
}

// The program with the command that the words ask for, or with all of them where there are no words.
function programOf(words = []) {
  const { Command } = load('commander');
  const program = new Command('bolgwyr')
    .description('Scopes, names and early errors of JavaScript and TypeScript, by an analysis that is proved.')
    .option('--version', 'tell the version, and how the programs were made')
    .on('option:version', tellVersion)
    .option('--no-color', 'no colours, also in a terminal')
    .showHelpAfterError('(bolgwyr --help tells the words)')
    .configureOutput({ outputError: (text, write) => write(text.replace(/^error: /, 'bolgwyr: ')) })
    .configureHelp(FOLDED_DESCRIPTION)
    .exitOverride()
    .addHelpText('after', behind(STATUSES));
  for (const { name, add } of commandsFor(words)) {
    add(program, name);
  }
  for (const command of program.commands) {
    command.exitOverride().showHelpAfterError(`(bolgwyr ${command.name()} --help tells the words)`);
  }
  return program;
}

// What commander ends with has a code of its own; it may be what is missing.
const isCommanders = ({ code }) => typeof code === 'string' && code.startsWith('commander.');

// Help and the version are answers; all else that commander ends with is a fault of the words.
function statusOf(error) {
  if (isCommanders(error)) {
    return error.exitCode === 0 ? STATUS.CLEAN : STATUS.USAGE;
  }
  // A module that isn't installed is a refusal of the converter's; what the system refuses names the call.
  const failed = error.name === 'Refusal' || error.syscall !== undefined;
  if (error.status === undefined && !failed) {
    throw error;
  }
  tell(`bolgwyr: ${error.message}`);
  return error.status ?? STATUS.FAILED;
}

// A reader of standard output that went away ends the command quietly; a full disk and the like end it in a line.
function heedOutput() {
  process.stdout.on('error', (error) => {
    if (error.code !== 'EPIPE') {
      tell(`bolgwyr: standard output can't be written: ${error.message}`);
    }
    process.exit(error.code === 'EPIPE' ? STATUS.CLEAN : STATUS.FAILED);
  });
}

async function main(words) {
  heedOutput();
  try {
    await programOf(words).parseAsync(words, { from: 'user' });
  } catch (error) {
    process.exitCode = statusOf(error);
  }
}

if (require.main === module) {
  main(process.argv.slice(2));
}

module.exports = { programOf };
