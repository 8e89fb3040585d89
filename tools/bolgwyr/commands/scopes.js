'use strict';
// bolgwyr scopes: a page that shows the scopes of source files.

const fs = require('fs');
const { load } = require('../../source-to-tree/load.js');
const { RunFault, STATUS, UsageFault } = require('../faults.js');
const { behind } = require('../help.js');
const { addReading, nameOf } = require('./sources.js');

const EXAMPLES = [
  ['bolgwyr scopes sum.mjs -o page.html', 'one page that needs nothing else'],
  ['bolgwyr scopes --project src/index.js > page.html', 'all modules that this one reaches, each in a tab'],
];

const PLACES = 'A part behind # selects in the page: page.html#ref-3, #symbol-2, #scope-1, #free-0.';

const PAGE_STATUSES = `Status: 0 the page is written; 1 no parser reads the file; 2 words that aren't known; 3 something could not be
read, run or written.`;

function pageOf(file, options) {
  const { analysedFile } = require('../../analyse/page/analysed-file.js');
  const { modelOf } = require('../../analyse/page/model.js');
  const { pageHtml } = require('../../analyse/page/page.js');
  const { parser, goal, tree } = options;
  return pageHtml([modelOf(analysedFile(file, { file: nameOf(file, options), parser, goal, tree }))]);
}

function projectPage(entries) {
  const { pageHtml } = require('../../analyse/page/page.js');
  const { projectModels } = require('../../analyse/page/project.js');
  const { models, graph } = projectModels(entries);
  return pageHtml(models, { title: entries.join(', '), graph });
}

function write(page, file) {
  if (file === undefined) {
    require('../../analyse/output.js').say(page);
    return;
  }
  try {
    fs.writeFileSync(file, page);
  } catch (error) {
    throw new RunFault(`${file} can't be written: ${error.message}`);
  }
}

// A text that is at fault is a finding; a file that can't be read is none.
function run(file, options) {
  const { Refusal } = require('../../analyse/refusal.js');
  if ((file === undefined) === (options.project === undefined)) {
    throw new UsageFault('a file is wanted, or --project with entries');
  }
  try {
    write(file === undefined ? projectPage(options.project) : pageOf(file, options), options.output);
  } catch (error) {
    if (!(error instanceof Refusal)) {
      throw error;
    }
    require('../../analyse/output.js').tell(error.lineFor(error.file ?? nameOf(file, options)));
    process.exitCode = error.line === undefined ? STATUS.FAILED : STATUS.FOUND;
  }
}

function add(program, name) {
  const { Option } = load('commander');
  const command = program.command(name)
    .description('Write a page that shows source files in the boxes of their scopes')
    .argument('[file]', 'the source file; - is standard input')
    .option('-o, --output <page>', 'the page, else standard output')
    .option('--project <entry...>', 'in place of a file: all modules that these files or folders reach')
    .addOption(new Option('--check', 'early errors, too').hideHelp()) // they are findings, which the page has always
    .option('--tree', 'the file holds a tree already, as JSON');
  addReading(command)
    .addHelpText('after', behind(EXAMPLES, PLACES, PAGE_STATUSES))
    .action((file, options, self) => run(file, self.optsWithGlobals()));
}

module.exports = { add };
