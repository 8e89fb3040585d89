'use strict';
// What the programs say of one file, read as far as it is asked for.

const { Positions } = require('../analyse/positions.js');
const { ReportEntries } = require('../analyse/report-entries.js');
const { parseReport } = require('../analyse/report-parser.js');
const { RunFault } = require('../bolgwyr/faults.js');

const NAME_LINE = /^(unused|undeclared) (\d+) ("(?:[^"\\]|\\.)*") (\d+)-(\d+)$/;

function readNameLine(line) {
  const found = NAME_LINE.exec(line);
  if (found === null) {
    throw new RunFault(`a line of the lint of names isn't known: ${line}`);
  }
  const [, kind, id, name, start, end] = found;
  const plain = name.includes('\\') ? JSON.parse(name) : name.slice(1, -1);
  return { kind, id: Number(id), name: plain, span: { start: Number(start), end: Number(end) } };
}

function readNames(text) {
  return text.split('\n').slice(0, -1).map(readNameLine);
}

// The numbers of the symbols that nothing in use uses.
function unusedSymbols(nameText) {
  return new Set(readNames(nameText).filter(({ kind }) => kind === 'unused').map(({ id }) => id));
}

// First words of the lines that are findings.
const FINDINGS = new Set(['label', 'diag']);

// The answers of the lint of names and of the report on a tree, as bytes. Either may be absent where no rule needs it.
class Answers {
  constructor({ text, tree, names, report, positions }) {
    this.text = text;
    this.tree = tree;
    this.nameBytes = names;
    this.report = report;
    this.known = { positions };
  }

  kept(name, make) {
    this.known[name] ??= make();
    return this.known[name];
  }

  get positions() {
    return this.kept('positions', () => new Positions(this.text));
  }

  get names() {
    return this.kept('names', () => readNames(this.nameBytes.toString('utf8')));
  }

  get reportText() {
    return this.kept('reportText', () => this.report.toString('utf8'));
  }

  // Whether the report has a line that begins with the word. Its first line is of the outermost scope.
  tells(word) {
    return this.report.includes(`\n${word} `);
  }

  namesOf(kind) {
    return this.names.filter((name) => name.kind === kind);
  }

  // What is told by lines. Most reports have none of them, and aren't read for them.
  get findings() {
    return this.kept('findings', () => parseReport([...FINDINGS].some((word) => this.tells(word)) ? this.reportText : '', FINDINGS));
  }

  get entries() {
    return this.kept('entries', () => new ReportEntries(this.report));
  }

  symbol(id) {
    return this.entries.symbol(id);
  }

  reference(id) {
    return this.entries.reference(id);
  }

  // The symbols that are declared more than once.
  get redeclared() {
    return this.tells('redecl') ? this.entries.redeclared().map((id) => this.symbol(id)) : [];
  }
}

module.exports = { Answers, unusedSymbols };
