'use strict';
// The colour of the sum at the end of what is told to people.

const assert = require('assert');
const { format } = require('../check/formats/pretty.js');

const finding = (severity) => ({ rule: 'no-unused', severity, message: 'lone', line: 1, column: 1, span: null, related: [] });
const clean = { file: 'clean.js', text: '', findings: [] };
const found = (severity) => ({ file: 'found.js', text: '', findings: [finding(severity)] });
const unread = { file: 'gone.js', text: '', findings: [], failure: 'no such file' };

const RED = 31;
const GREEN = 32;
const YELLOW = 33;

// The results, and the colour and text of the sum.
const CASES = [
  [[clean], GREEN, '1 file, nothing found'],
  [[clean, unread], YELLOW, '1 file, nothing found, 1 file not read'],
  [[found('warn'), clean], YELLOW, '0 errors, 1 warning in 1 of 2 files'],
  [[found('error'), unread], RED, '1 error in 1 of 1 file, 1 file not read'],
];

for (const [results, colour, sum] of CASES) {
  assert(format(results, { colour: true }).endsWith(`\u001b[${colour}m${sum}\u001b[39m\n`), sum);
  assert(format(results, { colour: false }).endsWith(`${sum}\n`), sum);
}
console.log('ok: the sum has the colour of the worst');
