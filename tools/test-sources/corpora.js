'use strict';
// Whole collections of sources, each file by every way: which trees there are, what the analyser with early errors says of
// each, and counts of what that should not be.

const fs = require('fs');
const path = require('path');
const { treeOf, Refusal } = require('../source-to-tree/convert');
const { parsersFor } = require('../source-to-tree/parsers');
const { goalOf } = require('../source-to-tree/languages');
const acorn = require('../source-to-tree/ways/acorn');
const { reportIn } = require('./analysis');
const { Served } = require('./served');

const PROGRESS = 1000;

// The files below a folder.
function* filesBelow(folder, isWanted) {
  for (const entry of fs.readdirSync(folder, { withFileTypes: true })) {
    const file = path.join(folder, entry.name);
    if (entry.isDirectory()) yield* filesBelow(file, isWanted);
    else if (isWanted(file)) yield file;
  }
}

const PRIME = 15485863; // above the number of files, so steps of it meet each file once

// One of so many files, from all folders in turn, until the time is over.
function* sampleOf(folder, isWanted, { stride, seconds }) {
  const files = [...filesBelow(folder, isWanted)].sort();
  const end = Date.now() + 1000 * seconds;
  for (let i = 0; i * stride < files.length && Date.now() < end; i++) yield files[(i * PRIME) % files.length];
}

// The ESTree that acorn makes, as another tool hands it over: in JSON, which has no words for some values.
function handedOver(source, { filename, goal }) {
  const [parser] = parsersFor('acorn', __dirname);
  const text = source.replace(/^\ufeff/, '');
  const { ast, comments } = acorn.read(text, { lang: 'js', filename, goal: goal || goalOf(filename), folder: __dirname, parser });
  const nodes = comments.map(({ block, start, end }) => ({ type: block ? 'Block' : 'Line', start, end }));
  try {
    return JSON.parse(JSON.stringify({ ...ast, comments: nodes }, (key, value) => (typeof value === 'bigint' ? null : value)));
  } catch (error) {
    throw error instanceof RangeError ? new Refusal('too deep for JSON') : error;
  }
}

function convertBy(way, source, options) {
  if (way !== 'estree') return treeOf(source, { ...options, parser: way });
  return treeOf(source, { ...options, parser: way, tree: handedOver(source, options) });
}

// What becomes of a source by one way: a tree, or a refusal. Another error is a fault of the conversion.
function outcomeOf(way, source, options) {
  try {
    return { json: convertBy(way, source, options).json };
  } catch (error) {
    if (!(error instanceof Refusal)) return { end: 'broken', why: error.stack.split('\n').slice(0, 3).join(' ') };
    return { end: error.isForAge || /nor has the tree a kind/.test(error.message) ? 'newer' : 'refused', why: error.lineFor('') };
  }
}

// The analyser says the same of equal trees.
class Reports {
  constructor() {
    this.served = new Served();
    this.last = { json: Buffer.alloc(0), said: null };
  }

  of(json) {
    if (!this.last.json.equals(json)) this.last = { json, said: this.make(json) };
    return this.last.said;
  }

  make(json) {
    const { report, refused } = reportIn(this.served.ask(['report', '--check'], json));
    if (report === undefined) return { end: 'broken', why: refused };
    const told = /^diag .*$/m.exec(report);
    return told === null ? { end: 'silent', why: 'no diagnostic' } : { end: 'told', why: told[0] };
  }
}

// The ends that a source of each kind may have; another is wrong, and so is a broken one.
const RIGHT = {
  positive: ['silent', 'newer'],
  negative: ['told', 'refused', 'newer'],
  any: ['silent', 'told', 'refused', 'newer'],
};

// Where two trees differ first.
function firstOther(json, other) {
  const [rows, others] = [json, other].map((bytes) => JSON.parse(bytes).rows.map((row) => JSON.stringify(row)));
  const at = rows.findIndex((row, place) => row !== others[place]);
  return at < 0 ? `${rows.length} rows in place of ${others.length}` : `${rows[at]} in place of ${others[at]}`;
}

class Corpus {
  constructor({ ways, shown, trees }) {
    this.ways = ways;
    this.shown = shown;
    this.reports = trees ? null : new Reports();
    this.counts = new Map();
    this.wrong = new Map(ways.map((way) => [way, []]));
    this.files = 0;
  }

  count(way, kind, end) {
    const key = `${way} ${kind}`;
    if (!this.counts.has(key)) this.counts.set(key, { silent: 0, told: 0, refused: 0, newer: 0, broken: 0, differing: 0, wrong: 0 });
    this.counts.get(key)[end] += 1;
  }

  // One source, whose kind tells how it should end. Ways that have a tree of it have the same one.
  add(name, source, kind, options) {
    this.files += 1;
    if (this.files % PROGRESS === 0) process.stderr.write(`${this.sums().join('\n')}\n`);
    let first = null;
    for (const way of this.ways) {
      const outcome = outcomeOf(way, source, options);
      this.addEnd({ name, kind, way }, outcome);
      if (outcome.json === undefined) continue;
      first = first || { way, json: outcome.json };
      if (!outcome.json.equals(first.json)) this.addDiffering({ name, kind, way }, outcome.json, first);
    }
  }

  addEnd({ name, kind, way }, outcome) {
    const { end, why } = outcome.json === undefined ? outcome : this.endOf(outcome.json);
    this.count(way, kind, end);
    if (!this.right(kind).includes(end)) this.addWrong(way, kind, `${name}: ${kind}, ${end}: ${why}`);
  }

  // Where trees alone are compared, nothing is asked of the analyser, and what it should tell of isn't told.
  right(kind) {
    return this.reports === null ? [...RIGHT[kind], 'silent'] : RIGHT[kind];
  }

  endOf(json) {
    return this.reports === null ? { end: 'silent' } : this.reports.of(json);
  }

  addDiffering({ name, kind, way }, json, first) {
    this.count(way, kind, 'differing');
    this.addWrong(way, kind, `${name}: ${kind}, another tree than by ${first.way}: ${firstOther(json, first.json)}`);
  }

  addWrong(way, kind, what) {
    this.count(way, kind, 'wrong');
    const line = `  ${way}: ${what}`;
    process.stderr.write(`${line}\n`);
    this.wrong.get(way).push(line);
  }

  sums() {
    const counted = (counts) => Object.entries(counts).map(([end, count]) => `${count} ${end}`).join(', ');
    return [`${this.files} sources`, ...[...this.counts].map(([key, counts]) => `${key}: ${counted(counts)}`)];
  }

  // No more is added behind this.
  print() {
    if (this.reports !== null) this.reports.served.end();
    console.log(this.sums().join('\n'));
    for (const list of this.wrong.values()) list.slice(0, this.shown).forEach((line) => console.log(line));
  }
}

module.exports = { Corpus, sampleOf };
