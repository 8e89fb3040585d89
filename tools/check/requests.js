'use strict';
// What the programs are asked about a file, and which of their answers says what.

const { isReportGiven } = require('../programs/index.js');

// The words with which each tool is asked. No name is told to the lint of names: what it says without is filtered by the names that
// are known, which is what it does itself, and a thousand words cost more than its answer.
const WORDS = { report: ['--check'], name_lint: [], file_check: [] };

// The tool that reads and analyses a tree once for both others.
const BOTH = 'file_check';

// The tools to ask where rules go by these. A report program that is given by hand has the report alone.
const toolsFor = (wanted) => (wanted.length > 1 && !isReportGiven() ? [BOTH] : wanted);

// First words of the lint's lines. No line of the report, behind which they stand, begins with one of them.
const LINT_WORDS = ['unused', 'undeclared'];

// The report and the lint's lines in the answer of the tool that has both. A report is never empty.
function parted(bytes) {
  const places = LINT_WORDS.map((word) => bytes.indexOf(`\n${word} `)).filter((place) => place !== -1);
  const end = places.length === 0 ? bytes.length : Math.min(...places) + 1;
  return { report: bytes.subarray(0, end), names: bytes.subarray(end) };
}

// The answers of report and lint, by what the tools wrote; one that wasn't asked is absent.
function answersIn({ report, name_lint: names, [BOTH]: both }) {
  return both === undefined ? { report, names } : parted(both);
}

module.exports = { WORDS, answersIn, toolsFor };
