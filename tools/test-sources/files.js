'use strict';
// One source file: its trees both ways, the analysis of each, and eslint-scope.

const { Refusal } = require('../source-to-tree/refusal');
const { readText } = require('../source-to-tree/input');
const { convert } = require('./small');
const { reportOf } = require('./analysis');
const { compareWithEslint } = require('./compare-scopes');

const isScript = (file) => /\.[mc]?js$/i.test(file);
const parsersOf = (file) => (isScript(file) ? ['acorn', 'typescript'] : ['typescript']);

const PROGRESS = 500;

function add(sums, counts) {
  for (const [kind, count] of Object.entries(counts)) sums[kind] = (sums[kind] || 0) + count;
}

class Files {
  constructor(tally) {
    this.tally = tally;
    this.sums = { files: 0, 'both ways': 0, analysed: 0, refused: 0, 'with eslint-scope': 0, references: 0, scopes: 0 };
    this.listed = {};
    this.refusals = [];
  }

  // The trees that there are; a refusal must have a place in the file, or be one of a limit.
  treesOf(file, source) {
    const trees = new Map();
    for (const parser of parsersOf(file)) {
      const { json, refused } = convert(source, { filename: file, parser });
      if (json === undefined) this.refusals.push(`${parser}: ${refused}`);
      else trees.set(parser, json);
    }
    return trees;
  }

  analyse(file, trees) {
    const reports = new Map();
    let before;
    for (const [parser, json] of trees) {
      if (before !== undefined && before.equals(json)) continue;
      before = json;
      const { report, refused } = reportOf(json);
      this.tally.check(`${file} by ${parser}: analysed`, report !== undefined, refused);
      reports.set(parser, report);
    }
    return reports;
  }

  compare(file, source, trees, reports) {
    if (trees.size === 2) {
      this.sums['both ways'] += 1;
      this.tally.check(`${file}: equal both ways`, trees.get('acorn').equals(trees.get('typescript')));
    }
    const report = reports.get('acorn');
    if (report === undefined) return;
    const found = compareWithEslint(source, JSON.parse(trees.get('acorn')), report);
    if (found === null) return;
    add(this.sums, { 'with eslint-scope': 1, references: found.references, scopes: found.scopes });
    add(this.listed, found.counts);
    this.tally.check(`${file}: as eslint-scope`, found.unlisted.length === 0, found.unlisted.slice(0, 5).join('; '));
  }

  // The text of the file, or null where it is refused.
  textOf(file) {
    try {
      return readText(file);
    } catch (error) {
      if (!(error instanceof Refusal)) throw error;
      this.refusals.push(error.lineFor(file));
      return null;
    }
  }

  check(file) {
    const source = this.textOf(file);
    const trees = source === null ? new Map() : this.treesOf(file, source);
    this.sums.files += 1;
    if (this.sums.files % PROGRESS === 0) process.stderr.write(`${this.sums.files} files\n`);
    this.sums[trees.size > 0 ? 'analysed' : 'refused'] += 1;
    this.compare(file, source, trees, this.analyse(file, trees));
  }

  print() {
    console.log(Object.entries(this.sums).map(([name, count]) => `${count} ${name}`).join(', '));
    if (this.refusals.length > 0) console.log(`refused:\n  ${this.refusals.join('\n  ')}`);
    const listed = Object.entries(this.listed).map(([kind, count]) => `${count} ${kind}`).join(', ');
    console.log(`listed differences from eslint-scope: ${listed || 'none'}`);
  }
}

module.exports = { Files };
