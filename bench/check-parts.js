'use strict';
// A part of what bench/check.sh times, over the files whose names stand one a line on standard input.
// usage: node bench/check-parts.js list FOLDER LISTS | parse | convert | trees FOLDER | eslint LISTS

const fs = require('fs');
const path = require('path');
const { readText } = require('../tools/analyse/files.js');
const { convertText } = require('../tools/analyse/tree.js');
const { sourcesOf } = require('../tools/check/sources.js');
const { load } = require('../tools/source-to-tree/load.js');
const { parsersFor } = require('../tools/source-to-tree/parsers.js');
const acorn = require('../tools/source-to-tree/ways/acorn.js');

const RULES = ['no-unused-vars', 'no-undef', 'no-redeclare'];

// What ESLint reads, too.
const isScript = (file) => /\.[cm]?js$/.test(file);

const namesIn = (file) => fs.readFileSync(file, 'utf8').split('\n').filter((name) => name !== '');
const names = () => namesIn(0);

// How ESLint reads a file of this goal. No newer language is known to it.
function readingOf(goal) {
  const isModule = goal === 'module';
  return { ecmaVersion: 2020, sourceType: isModule ? 'module' : 'script', ecmaFeatures: { jsx: true, globalReturn: !isModule } };
}

// The goal of a file that both linters read, else null.
function goalOf(file, linter) {
  const tree = treeOf(file);
  const goal = tree === null ? null : tree.head.goal;
  const isRead = goal !== null && linter.verify(readText(file), { parserOptions: readingOf(goal) }).every(({ fatal }) => !fatal);
  return isRead ? goal : null;
}

// Writes lists of the files of a folder, and of the packages in it, that both linters read: `files`, and those by goal.
function list(folder, lists) {
  const { Linter } = load('eslint');
  const linter = new Linter();
  const folders = [folder, path.join(folder, 'node_modules')].filter((name) => fs.existsSync(name));
  const sources = sourcesOf(folders).map(({ file }) => file).filter(isScript).map((file) => ({ file, goal: goalOf(file, linter) }));
  const namesWhere = (isWanted) => sources.filter(({ goal }) => goal !== null && isWanted(goal)).map(({ file }) => `${file}\n`).join('');
  fs.writeFileSync(path.join(lists, 'files'), namesWhere(() => true));
  fs.writeFileSync(path.join(lists, 'modules'), namesWhere((goal) => goal === 'module'));
  fs.writeFileSync(path.join(lists, 'scripts'), namesWhere((goal) => goal !== 'module'));
}

function treeOf(file) {
  try {
    return convertText(readText(file), { file });
  } catch {
    return null;
  }
}

// acorn's own parsing, with no conversion behind it.
function parse() {
  const [parser] = parsersFor('acorn', __dirname);
  for (const file of names()) {
    const text = readText(file);
    acorn.read(text, { source: text, text, filename: file, lang: 'js', goal: undefined, folder: path.dirname(file), parser });
  }
}

function convert() {
  names().forEach(treeOf);
}

function trees(folder) {
  names().forEach((file, place) => fs.writeFileSync(path.join(folder, `${place}.json`), treeOf(file).json));
}

// ESLint with the rules of its that `check` has by default, for the files of one goal.
function lintFiles(goal, files) {
  const { CLIEngine } = load('eslint');
  const engine = new CLIEngine({
    useEslintrc: false,
    ignore: false,
    allowInlineConfig: false,
    envs: ['node', 'browser', 'amd', 'es2020'],
    parserOptions: readingOf(goal),
    rules: Object.fromEntries(RULES.map((name) => [name, 'error'])),
  });
  const { results } = engine.executeOnFiles(files);
  const unread = results.filter(({ messages }) => messages.some(({ fatal }) => fatal)).length;
  console.log(`${results.length} files of goal ${goal}, ${unread} of them unread`);
}

function eslint(lists) {
  for (const goal of ['script', 'module']) {
    const files = namesIn(path.join(lists, `${goal}s`));
    if (files.length > 0) {
      lintFiles(goal, files);
    }
  }
}

const PARTS = { list, parse, convert, trees, eslint };
const [part, ...words] = process.argv.slice(2);
PARTS[part](...words);
