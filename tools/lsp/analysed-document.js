'use strict';
// A text with all that is known of it. Each part is made when it is first asked for, and kept until the text changes.

const { explain } = require('../analyse/analysis.js');
const { checkSize } = require('../analyse/files.js');
const { RefusedTree, answered } = require('../analyse/program.js');
const { parseReport } = require('../analyse/report-parser.js');
const { Refusal } = require('../analyse/refusal.js');
const { convertText } = require('../analyse/tree.js');
const { RunFault } = require('../bolgwyr/faults.js');
const { Answers } = require('../check/answers.js');
const { WORDS, answersIn, toolsFor } = require('../check/requests.js');
const { PROGRAMS } = require('../check/rules.js');
const { Analysed, LONE_HALF } = require('../rename/analysed.js');
const { Names } = require('./names.js');
const { Places } = require('./places.js');
const { runBeside } = require('./programs.js');

function sound(tree, tool, run) {
  try {
    return answered(tool, run).stdout;
  } catch (error) {
    throw error instanceof RefusedTree ? explain(error.refusal, tree) : error;
  }
}

class AnalysedDocument {
  // `changing` has the trees of the document as it changes.
  constructor({ uri, version, name, text }, { encoding }, changing) {
    Object.assign(this, { uri, version, name, text, changing });
    this.places = new Places(text, encoding);
    this.clock = {};
    this.kept = new Map();
    this.isLeft = false; // whether nobody wants answers on this text any more
  }

  once(name, make) {
    if (!this.kept.has(name)) {
      this.kept.set(name, make());
    }
    return this.kept.get(name);
  }

  // The milliseconds of a part are noted by its name.
  timed(name, make) {
    const started = performance.now();
    const made = make();
    this.clock[name] = performance.now() - started;
    return made;
  }

  // The parts that took time since it was asked before, in words, or null.
  timesOnce() {
    const words = Object.entries(this.clock).map(([name, time]) => `${name} ${Math.round(time)} ms`).join(', ');
    this.clock = {};
    return words === '' ? null : words;
  }

  // Tree and answers of the programs; a Refusal for a text that has none.
  ready() {
    return this.once('ready', () => this.make());
  }

  // Hears whether the text has changed meanwhile, before the programs are asked.
  async goesOn() {
    await new Promise((resolve) => setImmediate(resolve));
    if (this.isLeft) {
      throw new RunFault('the document has changed meanwhile');
    }
  }

  async make() {
    const { text, name, clock } = this;
    if (LONE_HALF.test(text)) {
      throw new Refusal('half of a character can\'t be written as UTF-8');
    }
    const tree = convertText(text, { file: name, clock, changing: this.changing });
    checkSize(tree.json.length, 'its tree');
    await this.goesOn();
    const started = performance.now();
    const answers = await this.ask(tree);
    clock.programs = performance.now() - started;
    return new Answers({ text, tree, ...answers, positions: this.places.positions });
  }

  // What the programs answer on the tree, as bolgwyr check asks them. Once they have it there is time to prepare what their answers are
  // read with.
  async ask(tree) {
    const tools = toolsFor(PROGRAMS);
    let waiting = tools.length;
    const sent = () => {
      waiting -= 1;
      if (waiting === 0) {
        this.places.prepare();
      }
    };
    const written = tools.map(async (tool) => [tool, sound(tree, tool, await runBeside(tool, WORDS[tool], tree.json, sent))]);
    return answersIn(Object.fromEntries(await Promise.all(written)));
  }

  // The tables, as the renamer takes them.
  async analysed() {
    const { tree, reportText, positions } = await this.ready();
    return this.once('analysed', () => this.timed('tables', () => {
      const report = parseReport(reportText);
      return new Analysed({ source: this.text, options: { filename: this.name }, json: tree.json, tree: tree.value, report, positions });
    }));
  }

  // The variables' names, by their places.
  async names() {
    const analysed = await this.analysed();
    return this.once('names', () => new Names(analysed));
  }
}

module.exports = { AnalysedDocument };
