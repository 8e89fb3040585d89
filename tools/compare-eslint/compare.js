'use strict';
// Both linters over the same files with the same names known, and what only one of them tells.

const fs = require('fs');
const bolgwyr = require('../../index.js');
const { load } = require('../source-to-tree/load.js');
const { sourcesOf } = require('../check/sources.js');
const { KINDS, UNKNOWN, kindOf } = require('./kinds.js');

const ENVIRONMENTS = ['node', 'browser', 'amd'];
const RULES = { 'no-unused-vars': 'no-unused', 'no-undef': 'no-undeclared' };

// Names with a sign before them are told here, too, and no comment silences ESLint.
const OURS = { env: ENVIRONMENTS, only: Object.values(RULES), rules: { 'no-unused': { ignore: '' } } };

function knownNames() {
  const globals = load('globals');
  const names = ['builtin', ...ENVIRONMENTS].flatMap((name) => Object.keys(globals[name]));
  return Object.fromEntries(names.map((name) => [name, 'readonly']));
}

// The text that both read: of the same length, and without what turns rules of ESLint off.
function readPlain(file) {
  return fs.readFileSync(file, 'utf8').replace(/\beslint-(disable|enable)/g, 'eslint_$1').replace(/^#!/, '//');
}

function configOf(goal, globals) {
  const isModule = goal === 'module';
  return {
    parserOptions: { ecmaVersion: 2020, sourceType: isModule ? 'module' : 'script', ecmaFeatures: { jsx: true, globalReturn: !isModule } },
    globals,
    rules: Object.fromEntries(Object.keys(RULES).map((name) => [name, 'error'])),
  };
}

// Columns there count units of the string, here characters.
function theirs(linter, text, file, config) {
  const lines = text.split(/\r\n|[\n\r\u2028\u2029]/);
  const messages = linter.verify(text, config, { filename: file });
  const fatal = messages.find((message) => message.fatal);
  const told = messages.filter(({ ruleId }) => RULES[ruleId] !== undefined).map(({ ruleId, line, column, message }) => {
    return { rule: RULES[ruleId], line, column: [...lines[line - 1].slice(0, column - 1)].length + 1, message };
  });
  return { fatal, told };
}

const placeOf = ({ rule, line, column }) => `${rule} ${line}:${column}`;

function onlyIn(found, others) {
  const places = new Set(others.map(placeOf));
  return found.filter((one) => !places.has(placeOf(one)));
}

// What both tell of a text, or null where one of them can't read it.
function compareText(linter, globals, file, text) {
  const ours = bolgwyr.check(text, { file, ...OURS });
  if (ours.some(({ rule }) => rule === 'syntax')) {
    return null;
  }
  const tables = bolgwyr.analyse(text, { file, nodes: true });
  const { fatal, told } = theirs(linter, text, file, configOf(tables.goal, globals));
  if (fatal !== undefined) {
    return null;
  }
  const differences = [
    ...onlyIn(ours, told).map((finding) => ({ ...finding, side: 'here' })),
    ...onlyIn(told, ours).map((finding) => ({ ...finding, side: 'there' })),
  ];
  const both = ours.length - differences.filter(({ side }) => side === 'here').length;
  return { both, differences: differences.map((difference) => ({ ...difference, kind: kindOf(difference, text, tables) })) };
}

function show(file, { rule, line, column, message, kind }) {
  console.log(`${kind}: ${file}:${line}:${column}: ${message} (${rule})`);
}

function tellSum({ files, unread, both, kinds }) {
  console.log(`${files} files (${unread} that one of both doesn't read), ${both} findings of both`);
  for (const [kind, number] of kinds) {
    console.log(`${String(number).padStart(6)} ${kind}${KINDS[kind] === undefined ? '' : `: ${KINDS[kind].why}`}`);
  }
}

// Whether the example of each kind differs in that kind alone.
function tryExamples(linter, globals) {
  const wrong = Object.entries(KINDS).filter(([kind, { example: [file, text] }]) => {
    const differences = compareText(linter, globals, file, text)?.differences ?? [];
    const kinds = [...new Set(differences.map((difference) => difference.kind))];
    console.log(`${kinds.join() === kind ? 'ok' : `FAILED, found: ${kinds.join() || 'nothing'}`}: ${kind}`);
    return kinds.join() !== kind;
  });
  return wrong.length === 0 ? 0 : 1;
}

function compareAll(linter, globals, files, showsAll) {
  const sum = { files: 0, unread: 0, both: 0, kinds: new Map() };
  for (const file of files) {
    const found = compareText(linter, globals, file, readPlain(file));
    sum.files += found === null ? 0 : 1;
    sum.unread += found === null ? 1 : 0;
    sum.both += found?.both ?? 0;
    for (const difference of found?.differences ?? []) {
      sum.kinds.set(difference.kind, (sum.kinds.get(difference.kind) ?? 0) + 1);
      if (showsAll || difference.kind === UNKNOWN) {
        show(file, difference);
      }
    }
  }
  tellSum(sum);
  return sum.kinds.has(UNKNOWN) ? 1 : 0;
}

// Compares files; without any, an example of each kind. `--all` shows each difference, not only those of no known kind.
function compareFiles(words) {
  const linter = new (load('eslint').Linter)();
  const globals = knownNames();
  const names = words.filter((word) => word !== '--all');
  if (names.length === 0) {
    return tryExamples(linter, globals);
  }
  return compareAll(linter, globals, sourcesOf(names).map(({ file }) => file), words.includes('--all'));
}

module.exports = { compareFiles };
