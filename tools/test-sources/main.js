'use strict';
// Tests the converters: small sources, stored trees, and files of the packages that are installed.

const fs = require('fs');
const path = require('path');
const { Tally } = require('./tally');
const { checkCases, checkStored } = require('./small');
const { checkDifferences } = require('./compare-scopes');
const { checkCommands } = require('./commands');
const { checkDialects } = require('./dialects');
const { checkAges } = require('./ages');
const { checkChanging } = require('./changing');
const { checkParsers } = require('./parsers');
const { checkWarmUp } = require('./warm-up');
const { checkTest262 } = require('./test262');
const { checkTypeScript } = require('./typescript-cases');
const { Files } = require('./files');

const INSTALLED = '/usr/share/nodejs';
const SOURCE = /\.(?:[mc]?[jt]s|[jt]sx)$/i;

function* filesBelow(folder) {
  for (const entry of fs.readdirSync(folder, { withFileTypes: true })) {
    const name = path.join(folder, entry.name);
    if (entry.isDirectory()) yield* filesBelow(name);
    else if (entry.isFile() && SOURCE.test(name)) yield name;
  }
}

// The files of a list that are there.
function listed(list) {
  const names = fs.readFileSync(list, 'utf8').split('\n').filter((line) => line !== '' && !line.startsWith('#'));
  const there = names.filter((name) => fs.existsSync(name));
  if (there.length < names.length) console.log(`${names.length - there.length} of ${names.length} files of the list aren't there`);
  return there;
}

function filesOf(words) {
  if (words[0] === '--list') return listed(words[1]);
  return words.length > 0 ? words : filesBelow(INSTALLED);
}

const COLLECTIONS = { '--test262': checkTest262, '--typescript': checkTypeScript };

// A collection of sources: its folder, and how much of it by which ways.
function checkCollection(word, folder, words) {
  const options = { stride: 1, seconds: 3600, ways: ['acorn', 'estree', 'typescript'], shown: 20, trees: words.includes('--trees') };
  const given = words.filter((one) => one !== '--trees');
  for (let i = 0; i < given.length; i += 2) {
    const name = given[i].slice(2);
    options[name] = name === 'ways' ? given[i + 1].split(',') : Number(given[i + 1]);
  }
  COLLECTIONS[word](folder, options);
  return 0;
}

function checkAll(tally, words) {
  checkCases(tally);
  checkDialects(tally);
  checkDifferences(tally);
  checkCommands(tally);
  checkAges(tally);
  checkChanging(tally);
  checkParsers(tally);
  checkWarmUp(tally);
  console.log(`${checkStored(tally)} stored trees`);
  const files = new Files(tally);
  for (const file of filesOf(words)) files.check(file);
  files.print();
}

function main(words) {
  if (words[0] in COLLECTIONS) return checkCollection(words[0], words[1], words.slice(2));
  const tally = new Tally();
  checkAll(tally, words);
  console.log(`${tally.passed} passed, ${tally.failed} failed`);
  return tally.failed === 0 ? 0 : 1;
}

process.exitCode = main(process.argv.slice(2));
