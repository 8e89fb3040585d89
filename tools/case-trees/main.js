'use strict';
// Writes the trees of the programs of crates/program_cases/data/early_errors. Its file `cases` has a program a line behind its name;
// the tree of each goes to `programs`. TypeScript's compiler reads them all, since it takes programs with early errors;
// what it doesn't take is read in another form and mended, which `mends.js` tells.
// usage: node tools/case-trees/main.js

const fs = require('fs');
const path = require('path');
const { treeOf, Refusal } = require('../source-to-tree/convert');
const { MENDS } = require('./mends');

const DATA = path.join(__dirname, '../../crates/program_cases/data/early_errors');

// The goal by the ending of a name; the language is told by it as for files.
const GOALS = { js: 'script', jsx: 'script', ts: 'script', tsx: 'script', mjs: 'module', mts: 'module', cjs: 'commonjs' };

function goalOf(name) {
  return GOALS[name.slice(name.lastIndexOf('.') + 1)];
}

function treeAs(source, name) {
  return treeOf(source, { filename: name, parser: 'typescript', goal: goalOf(name) }).json;
}

// The tree of what stands in for the source, with the source and the rows put right.
function mendedTree(source, name, { read, mend }) {
  const tree = JSON.parse(treeAs(read(source), name));
  tree.source = source;
  tree.rows.forEach((row) => mend(row, source));
  return JSON.stringify(tree);
}

function caseTree(source, name) {
  const mends = MENDS.find(({ names }) => names.includes(name));
  return mends ? mendedTree(source, name, mends) : treeAs(source, name);
}

// The programs of the table, each with its name.
function programs() {
  const lines = fs.readFileSync(path.join(DATA, 'cases'), 'utf8').split('\n');
  return lines.filter((line) => line !== '' && !line.startsWith('# ')).map((line) => {
    const behind = line.indexOf(' ');
    return { name: line.slice(0, behind), source: line.slice(behind + 1) };
  });
}

function writeTree({ name, source }) {
  try {
    fs.writeFileSync(path.join(DATA, 'programs', `${name}.json`), caseTree(source, name));
    return true;
  } catch (error) {
    if (!(error instanceof Refusal)) throw error;
    console.error(`${error.lineFor(name)}  ${source}`);
    return false;
  }
}

fs.mkdirSync(path.join(DATA, 'programs'), { recursive: true });
const refused = programs().filter((program) => !writeTree(program));
process.exitCode = refused.length === 0 ? 0 : 1;
