'use strict';
// What the programs of this repository say of a source: its rows, its tables and its tangled names.

const { spawnSync } = require('node:child_process');
const path = require('node:path');
const { treeOf } = require('../source-to-tree/convert');
const { parseReport } = require('../analyse/report-parser');

const BIN = path.join(__dirname, '..', '..', 'bin');

// A program of `bin/`, or the built one that the variable names, which takes `word` first if it is several in one.
function command(variable, name, word) {
  const built = process.env[variable];
  return built ? [built, word ? [word] : []] : [path.join(BIN, name), []];
}

function run([file, words], input) {
  const { status, stdout, stderr, error } = spawnSync(file, words, { input, encoding: 'utf8', maxBuffer: 1 << 28 });
  if (error) throw error;
  if (status > 1) throw new Error(`${file} ended with ${status}: ${stderr}`);
  return stdout;
}

const REPORT = command('BOLGWYR_REPORT', 'report');
const TANGLED = command('BOLGWYR_TOOLS', 'tangled_names', 'tangled_names');
const LINE = /^tangled \d+ ("(?:[^"\\]|\\.)*") (.*)$/;

// The names with their reasons, by the lines of the program.
function tangledByProgram(json) {
  const found = new Map();
  for (const line of run(TANGLED, json).split('\n').filter((text) => text !== '')) {
    const [, name, reasons] = LINE.exec(line);
    found.set(JSON.parse(name), reasons.split(' '));
  }
  return found;
}

// The tree as JSON, its rows and the report.
function tablesOf(source, options = { filename: 'program.js', goal: 'script' }) {
  const { json } = treeOf(source, options);
  return { json, rows: JSON.parse(json).rows, report: parseReport(run(REPORT, json)) };
}

module.exports = { tablesOf, tangledByProgram };
