'use strict';
// Reads reports line by line: each kind of line, and lines that no report has.

const assert = require('assert');
const { ReportEntries } = require('../report-entries.js');
const { parseReport } = require('../report-parser.js');

const WHOLE = `node 0 Program parent 0 scope 0
scope 0 parent - node 0 flags StrictMode+Top
bind 0 "a\\"\\u0001 b" 0
symbol 0 "a\\"\\u0001 b" scope 0 node 0 span 1-2 flags Function+AsyncOrGeneratorFunction
redecl 0 node 0 span 1-2 flags -
redecl 0 node 0 span 3-4 flags Function
uses 0 0 1
pure 0
ref 0 "a" node 0 scope 0 flags Read+Write symbol 0
ref 1 "a" node 0 scope 0 flags - symbol -
free "a" 1
class 0 node 0 parent -
element 0 0 "x" span 5-6 private static kind Method+Getter
use 0 node 0 "x" span 7-8 elements 0
use 0 node 0 "y" span 7-8 elements
class 1 node 0 parent 0
label 0
stats nodes 1 scopes 1 symbols 1 references 2
diag - "all \\"said\\"" help - note -
diag TS(1228) "said" at 1-2 - at 3-4 "here" help "do" note "see"
`;

const report = parseReport(WHOLE);
assert.deepStrictEqual(report.scopes[0], { id: 0, parent: null, node: 0, flags: ['StrictMode', 'Top'], bindings: [{ name: 'a"\u0001 b', symbol: 0 }] });
assert.deepStrictEqual(report.symbols[0].redeclarations.map((entry) => entry.span.start), [1, 3]);
assert.deepStrictEqual([report.symbols[0].references, report.symbols[0].pure], [[0, 1], true]);
assert.deepStrictEqual(report.references.map((entry) => entry.symbol), [0, null]);
assert.deepStrictEqual(report.classes[0].uses.map((use) => use.elements), [[0], []]);
assert.deepStrictEqual(report.classes[0].elements[0], { id: 0, name: 'x', span: { start: 5, end: 6 }, isPrivate: true, isStatic: true, kind: ['Method', 'Getter'] });
assert.deepStrictEqual(report.diagnostics[1], { code: 'TS(1228)', message: 'said', labels: [{ span: { start: 1, end: 2 }, text: null }, { span: { start: 3, end: 4 }, text: 'here' }], help: 'do', note: 'see' });
assert.deepStrictEqual(report.unusedLabels, [{ node: 0 }]);
assert.deepStrictEqual(report.stats, { nodes: 1, scopes: 1, symbols: 1, references: 2 });
assert.deepStrictEqual(parseReport('made nodes 5 scopes 4 symbols 3 references 2 free 1\n').made, { nodes: 5, scopes: 4, symbols: 3, references: 2, free: 1 });
console.log('ok: lines of each kind are read');

const UNKNOWN = [
  'what 0\n',
  'scope 0 parent - node 0 flags Top\nscope 2 parent 0 node 0 flags -\n',
  'scope 0 parent - node 0 flags Top more\n',
  'scope 0 parent - node 01 flags Top\n',
  'scope 0 parent - node 0 flags Top',
  'uses 0\n',
  'bind 0 "a" 0\n',
  'free "a\n',
  'label 1 2\n',
  'made nodes 1 scopes 1 symbols 1 references 1\n',
  '\n',
];
for (const text of UNKNOWN) {
  assert.throws(() => parseReport(text), /^Error: line \d+ of the report isn't known/, JSON.stringify(text));
}
console.log('ok: other lines are refused');

// A report of so many symbols, of which each third one is declared again, and of twice as many references.
function longReport(count) {
  const symbol = (id) => `symbol ${id} "é${id}" scope 0 node ${id} span ${id}-${id + 1} flags Function\n`;
  const again = (id) => [id, id + 1].map((node) => `redecl ${id} node ${node} span 1-2 flags -\n`).join('');
  const symbols = Array.from({ length: count }, (_, id) => `${symbol(id)}${id % 3 === 0 ? again(id) : ''}uses ${id} ${2 * id} ${2 * id + 1}\n`);
  const references = Array.from({ length: 2 * count }, (_, id) => `ref ${id} "é" node ${id} scope 0 flags Read symbol ${id >> 1}\n`);
  return `scope 0 parent - node 0 flags Top\n${symbols.join('')}${references.join('')}`;
}

const ENDS_WITH_SYMBOL = 'scope 0 parent - node 0 flags Top\nsymbol 0 "a" scope 0 node 1 span 1-2 flags -\nuses 0\n';
for (const text of [WHOLE, ENDS_WITH_SYMBOL, longReport(1), longReport(1234)]) {
  const { symbols, references } = parseReport(text);
  const entries = new ReportEntries(Buffer.from(text));
  assert.strictEqual(entries.symbolCount, symbols.length);
  symbols.forEach((symbol, id) => assert.deepStrictEqual(entries.symbol(id), symbol));
  references.forEach((reference, id) => assert.deepStrictEqual(entries.reference(id), reference));
  assert.deepStrictEqual(entries.redeclared(), symbols.filter(({ redeclarations }) => redeclarations.length > 0).map(({ id }) => id));
  assert.throws(() => entries.symbol(symbols.length), /^Error: the report has no symbol \d+/);
  assert.throws(() => entries.reference(references.length), /^Error: the report has no ref \d+/);
}
const none = new ReportEntries(Buffer.from('scope 0 parent - node 0 flags Top\n'));
assert.deepStrictEqual([none.symbolCount, none.redeclared()], [0, []]);
assert.throws(() => none.symbol(0), /^Error: the report has no symbol 0/);
console.log('ok: entries that are read one by one are those of the whole');
