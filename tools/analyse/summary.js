'use strict';
// Counts of a file, its line, and the sum over files.

const { printable } = require('./refusal.js');

const COUNTS = ['scopes', 'symbols', 'references', 'free', 'unusedLabels', 'diagnostics'];
const NAMES = {
  scopes: ['scope', 'scopes'],
  symbols: ['symbol', 'symbols'],
  references: ['reference', 'references'],
  free: ['free name', 'free names'],
  unusedLabels: ['unused label', 'unused labels'],
  diagnostics: ['diagnostic', 'diagnostics'],
};

function countsOf(report) {
  return Object.fromEntries(COUNTS.map((name) => [name, report[name].length]));
}

function told(name, number) {
  return `${number} ${NAMES[name][number === 1 ? 0 : 1]}`;
}

function fileLine(file, counts) {
  return `${printable(file)}: ${COUNTS.map((name) => told(name, counts[name])).join(', ')}`;
}

// Counts over all files of a run.
class Sum {
  constructor() {
    this.files = 0;
    this.refused = 0;
    this.unread = 0;
    this.diagnosed = 0;
    this.counts = Object.fromEntries(COUNTS.map((name) => [name, 0]));
  }

  // A file without tables: one whose text is at fault has a place, others could not be read.
  addRefused(hasPlace = true) {
    this.files += 1;
    this.refused += 1;
    this.unread += hasPlace ? 0 : 1;
  }

  // A file whose report went out unread.
  addReport(isDiagnosed) {
    this.files += 1;
    this.diagnosed += isDiagnosed ? 1 : 0;
  }

  add(counts) {
    this.files += 1;
    this.diagnosed += counts.diagnostics > 0 ? 1 : 0;
    for (const name of COUNTS) {
      this.counts[name] += counts[name];
    }
  }

  // Whether each file was analysed and none has diagnostics.
  get clean() {
    return this.refused === 0 && this.diagnosed === 0;
  }

  line() {
    const files = `${this.files} ${this.files === 1 ? 'file' : 'files'}`;
    const counts = COUNTS.map((name) => told(name, this.counts[name])).join(', ');
    return `${files}, ${this.refused} refused, ${this.diagnosed} with diagnostics: ${counts}`;
  }
}

module.exports = { Sum, countsOf, fileLine };
