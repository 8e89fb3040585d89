'use strict';
// The small sources and the stored trees.

const fs = require('fs');
const path = require('path');
const { treeOf, Refusal } = require('../source-to-tree/convert');
const { load } = require('../source-to-tree/load');
const { isBefore } = require('../source-to-tree/parsers');
const { reportOf } = require('./analysis');
const { JS, ONE_WAY, NEWER, REFUSED, GOALS } = require('./cases');

const STORED = path.join(__dirname, '../../crates/program_cases/data/reports/programs');

// The tree, or the line of the refusal.
function convert(source, options) {
  try {
    return { json: treeOf(source, options).json };
  } catch (error) {
    if (!(error instanceof Refusal)) throw error;
    return { refused: error.lineFor(options.filename) };
  }
}

// A row as the cases write it.
function written(source, [, role, kind, start, end, text, marks]) {
  const named = text === '' && !['TemplateElement', 'StringLiteral', 'JSXText'].includes(kind) ? '' : ` ${JSON.stringify(text)}`;
  return `${role} ${kind}${named}${marks.length ? ` [${marks.join(' ')}]` : ''} «${source.subarray(start, end)}»`;
}

function checkRows(tally, name, source, json, wanted) {
  const { report, refused } = reportOf(json);
  if (!tally.check(`${name}: analysed`, report !== undefined, refused)) return;
  const bytes = Buffer.from(source);
  const rows = JSON.parse(json).rows.map((row) => written(bytes, row));
  const missing = wanted.filter((row) => !rows.some((found) => found === row || (!row.includes('«') && found.startsWith(`${row} «`))));
  tally.check(`${name}: rows`, missing.length === 0, `${missing.join('; ')} not in\n  ${rows.join('\n  ')}`);
}

function checkCase(tally, [name, filename, source, rows, parser]) {
  const { json, refused } = convert(source, { filename, parser });
  if (tally.check(`${name}: read`, json !== undefined, refused)) checkRows(tally, name, source, json, rows);
}

function checkBothWays(tally, [name, filename, source, rows]) {
  const trees = ['acorn', 'typescript'].map((parser) => convert(source, { filename, parser }));
  const refused = trees.map((tree) => tree.refused).filter(Boolean).join(', ');
  if (!tally.check(`${name}: read both ways`, refused === '', refused)) return;
  tally.check(`${name}: equal both ways`, trees[0].json.equals(trees[1].json), `\n${trees[0].json}\n${trees[1].json}`);
  if (trees[0].json.includes('"lang":"jsx"')) checkAsJsx(tally, name, source, trees[0].json);
  checkRows(tally, name, source, trees[0].json, rows);
}

// Elements give the tree that they give in a file of their own kind.
function checkAsJsx(tally, name, source, json) {
  const { goal } = JSON.parse(json);
  const tree = convert(source, { filename: 'x.jsx', goal });
  tally.check(`${name}: equal as .jsx`, tree.json !== undefined && tree.json.equals(json), tree.refused);
}

function checkNewer(tally, [name, filename, source, rows, since]) {
  const { version } = load('typescript');
  if (isBefore(version, since)) console.log(`not tried: ${name}, which the compiler reads from ${since} on (here ${version})`);
  else checkCase(tally, [name, filename, source, rows, 'typescript']);
}

function checkCases(tally) {
  for (const one of JS) checkBothWays(tally, one);
  for (const one of ONE_WAY) checkCase(tally, one);
  for (const one of NEWER) checkNewer(tally, one);
  for (const [name, filename, source, line, parser] of REFUSED) {
    const { refused } = convert(source, { filename, parser });
    tally.check(`refused: ${name}`, refused === line, refused || 'a tree');
  }
  for (const [filename, source, goal] of GOALS) {
    for (const parser of /js$/.test(filename) ? ['acorn', 'typescript'] : ['typescript']) {
      const { json, refused } = convert(source, { filename, parser });
      tally.check(`goal of ${filename} with ${source} by ${parser}`, json && JSON.parse(json).goal === goal, refused);
    }
  }
}

const ENDINGS = { js: '.js', jsx: '.jsx', ts: '.ts', tsx: '.tsx', dts: '.d.ts' };
// Kinds of methods' lists of parameters are unique here; the stored trees, which were made for other rules, have them formal.
const methodsFormal = (text) => (text === 'unique' ? 'formal' : text);
const shapeOf = (rows) => rows.map(([depth, role, kind, , , text, marks]) => JSON.stringify([depth, role, kind, methodsFormal(text), marks])).join('\n');

// Programs whose stored trees leave something out that their sources have, or are refused by today's parsers.
const OTHERWISE = require('./stored.json');

// Programs whose stored trees have each span whole.
const WHOLE = new Set(['import-events-require-events-declare-nam.json', 'import-react-usestate-as-state-from-reac.json',
  'usr-bin-env-node-var-args-process-argv-s.json', 'let-a-1-a-2.json']);
const wholeShape = (rows) => rows.map((row) => JSON.stringify(row.map((part) => methodsFormal(part)))).join('\n');

// Of most stored trees the spans are shortened, so kinds, roles, texts and marks are compared.
function checkStored(tally) {
  const names = fs.readdirSync(STORED).filter((name) => name.endsWith('.json'));
  for (const name of names) {
    const tree = JSON.parse(fs.readFileSync(path.join(STORED, name), 'utf8'));
    for (const parser of tree.lang === 'js' ? ['acorn', 'typescript'] : ['typescript']) {
      const { json } = convert(tree.source, { filename: `x${ENDINGS[tree.lang]}`, parser, goal: tree.goal });
      const listing = WHOLE.has(name) ? wholeShape : shapeOf;
      const equal = json !== undefined && listing(JSON.parse(json).rows) === listing(tree.rows);
      const listed = OTHERWISE[`${name} by ${parser}`];
      tally.check(`stored ${name} by ${parser}`, equal || listed !== undefined, json === undefined ? 'refused' : 'differs');
    }
  }
  return names.length;
}

module.exports = { convert, checkRows, checkCases, checkStored };
