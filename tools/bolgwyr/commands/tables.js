'use strict';
// bolgwyr tables: the tables of source files, as they are proved.

const { UsageFault } = require('../faults.js');
const { STATUSES, behind } = require('../help.js');
const { addReading, addTables, nameOf, reportWords } = require('./sources.js');

const FORMS_OF_FILES = 'One file gives its report, several a line each and a sum. docs/tables.md has the objects of --json.';

const EXAMPLES = [
  ['bolgwyr tables sum.mjs', 'the report, line by line'],
  ['bolgwyr tables --json src > tables.jsonl', 'one object a file, one a line'],
  ['bolgwyr tables --text --check lib.ts', 'diagnostics with their lines of source, and unused labels'],
  ['bolgwyr tables --out tables src', 'a file of tables for each, with GNU parallel; --resume goes on'],
  ['bolgwyr tables --out tables --machines machines --transfer src'],
];

const FORMS = ['json', 'text', 'report'];

function addFolder(command) {
  return command
    .option('--out <folder>', 'the tables of each file of a folder go here, with a summary, by GNU parallel')
    .option('--resume', 'with --out: go on with a run that was broken off')
    .option('--jobs <number>', 'with --out: how many jobs at once, as GNU parallel reads it (4, 50%, +1)')
    .option('--batch <number>', 'with --out: how many files a job has')
    .option('--node-modules', 'with --out: folders of that name too')
    .option('--machines <file>', 'with --out: the machines to use, as GNU parallel reads them')
    .option('--transfer', 'with --machines: bundles of files go there and tables come back, by rsync');
}

function formOf(options, otherwise) {
  const named = FORMS.filter((form) => options[form]);
  if (named.length > 1) {
    throw new UsageFault(`one of --${named.join(' and --')} is wanted`);
  }
  return named[0] ?? otherwise;
}

function numberOf(word, value) {
  if (value !== undefined && !/^[1-9][0-9]{0,5}$/.test(value)) {
    throw new UsageFault(`${word} wants a number from 1`);
  }
  return value === undefined ? null : Number(value);
}

function runFolder(words, options) {
  if (words.length !== 1) {
    throw new UsageFault('--out wants one folder');
  }
  const { isFolder } = require('../../check/sources.js');
  if (!isFolder(words[0])) {
    throw new UsageFault(`${words[0]} is no folder`);
  }
  const { out, parser, goal, jobs = null, machines = null } = options;
  const flags = { resume: options.resume === true, nodeModules: options.nodeModules === true, transfer: options.transfer === true };
  const batch = numberOf('--batch', options.batch);
  const settings = { form: formOf(options, 'json'), words: reportWords(options), parser, goal, out, jobs, batch, machines, ...flags };
  return require('../../analyse/folder-run.js').analyseFolder(words[0], settings);
}

function runFiles(words, options) {
  if (words.length === 0) {
    throw new UsageFault('no file is named');
  }
  const files = require('../../check/sources.js').sourcesOf(words).map(({ file }) => ({ file, name: nameOf(file, options) }));
  const form = formOf(options, files.length === 1 ? 'report' : 'line');
  const { parser, goal, time, tree } = options;
  return require('../../analyse/tables.js').showTables(files, { form, words: reportWords(options), parser, goal, time, tree });
}

// Words that need another one.
const NEEDS = [['resume', 'out'], ['jobs', 'out'], ['batch', 'out'], ['nodeModules', 'out'], ['machines', 'out'], ['transfer', 'machines']];

const wordOf = (name) => `--${name.replace(/[A-Z]/g, (letter) => `-${letter.toLowerCase()}`)}`;

async function run(words, options) {
  const [lone, needed] = NEEDS.find(([name, other]) => options[name] !== undefined && options[other] === undefined) ?? [];
  if (lone !== undefined) {
    throw new UsageFault(`${wordOf(lone)} wants ${wordOf(needed)}`);
  }
  process.exitCode = await (options.out === undefined ? runFiles(words, options) : runFolder(words, options));
}

function add(program, name) {
  const command = program.command(name)
    .description('Show scopes, symbols, references and diagnostics of source files')
    .argument('[files...]', 'files, folders and globs; - is standard input')
    .option('--json', 'an object for each file, one a line')
    .option('--text', 'for people: diagnostics with their lines of source, and unused labels')
    .option('--report', 'the report program\'s own lines')
    .option('--time', 'how long reading, parser, conversion to a tree and analysis took, on standard error');
  addFolder(addReading(addTables(command)))
    .addHelpText('after', behind(FORMS_OF_FILES, EXAMPLES, STATUSES))
    .action((words, options, self) => run(words, self.optsWithGlobals()));
}

module.exports = { add };
