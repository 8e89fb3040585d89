'use strict';
// Lines of source with marks below them, whole and cut to a terminal's columns.

const assert = require('assert');
const { excerpt } = require('../excerpt.js');
const { Positions } = require('../positions.js');

const LONG = `${'a'.repeat(100)}name${'b'.repeat(100)}`;

// A text, the span's bytes, the columns (none: no terminal), what is said, and both lines.
const CASES = [
  ['let a;', 4, 5, undefined, null, ['  1 | let a;', '    |     ^']],
  ['let a;', 4, 5, 12, 'here', ['  1 | let a;', '    |     ^ here']],
  ['let a;', 6, 6, 80, null, ['  1 | let a;', '    |       ^']],
  [LONG.slice(0, 74), 70, 72, 80, null, [`  1 | ${'a'.repeat(74)}`, `    | ${' '.repeat(70)}^^`]],
  [LONG, 100, 104, 80, null, [`  1 | …${'a'.repeat(24)}name${'b'.repeat(44)}…`, `    | ${' '.repeat(25)}^^^^`]],
  [LONG, 2, 3, 80, null, [`  1 | ${'a'.repeat(72)}…`, '    |   ^']],
  [LONG, 203, 204, 80, null, [`  1 | …${'b'.repeat(25)}`, `    | ${' '.repeat(25)}^`]],
  [LONG, 0, 204, 80, null, [`  1 | ${'a'.repeat(72)}…`, `    | ${'^'.repeat(72)}`]],
  [LONG, 100, 104, undefined, null, [`  1 | …${'a'.repeat(60)}name${'b'.repeat(100)}`, `    | ${' '.repeat(61)}^^^^`]],
  [LONG, 100, 104, 1, null, [`  1 | …${'a'.repeat(10)}name${'b'.repeat(14)}…`, `    | ${' '.repeat(11)}^^^^`]],
  [`\t${'𝒳'.repeat(60)}`, 1, 5, 80, null, [`  1 | \t${'𝒳'.repeat(35)}…`, '    | \t^']],
];

for (const [text, start, end, columns, said, lines] of CASES) {
  const found = excerpt(new Positions(text), { start, end }, said, columns);
  assert.deepStrictEqual(found, lines, `${JSON.stringify(text)} at ${start}`);
  assert(columns === undefined || columns < 36 || said !== null || found.every((line) => line.length <= columns || line.includes('𝒳')));
}
console.log('ok: lines of source are cut to the columns');
