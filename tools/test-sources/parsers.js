'use strict';
// Which parser is taken: the nearest to the file that can be used, and another where that is too old for the text.

const fs = require('fs');
const os = require('os');
const path = require('path');
const { treeOf, Refusal } = require('../source-to-tree/convert');
const { addDebian } = require('../source-to-tree/load');
const { parsersFor } = require('../source-to-tree/parsers');
const { parsersIn } = require('../source-to-tree/ways/babel');

function writeModule(folder, name, version, script) {
  const place = path.join(folder, 'node_modules', name);
  fs.mkdirSync(place, { recursive: true });
  fs.writeFileSync(path.join(place, 'package.json'), JSON.stringify({ name, version, main: 'index.js' }));
  fs.writeFileSync(path.join(place, 'index.js'), script);
}

function placeOf(name) {
  addDebian();
  return JSON.stringify(require.resolve(name));
}

// An acorn that reads `a` where the text has `b`, so that a tree tells which one read it.
const renaming = () => `
  const acorn = require(${placeOf('acorn')});
  exports.Parser = class extends acorn.Parser {
    static parse(text, options) { return acorn.Parser.parse.call(this, text.replace('b', 'a'), options); }
  };`;

// One that knows `using` as if it were `const`.
const newer = () => `
  const acorn = require(${placeOf('acorn')});
  exports.Parser = class extends acorn.Parser {
    static parse(text, options) { return acorn.Parser.parse.call(this, text.replace('using', 'const'), options); }
  };`;

const namesIn = (source, filename, options = {}) => (
  JSON.parse(treeOf(source, { filename, ...options }).json).rows.filter((row) => row[2] === 'IdentifierReference').map((row) => row[5]).join());

// Folders of a project, what stands in `node_modules` of each, and the name that the file there is read with.
function checkNearest(tally, top) {
  const folder = (...names) => path.join(top, ...names);
  writeModule(folder('near'), 'acorn', '8.9.0', renaming());
  writeModule(folder('near', 'broken'), 'acorn', '8.9.0', 'throw new Error("broken")');
  writeModule(folder('near', 'empty'), 'acorn', '8.9.0', '');
  writeModule(folder('near', 'old'), 'acorn', '7.4.1', newer());
  fs.mkdirSync(folder('near', 'bare', 'node_modules', 'acorn'), { recursive: true });
  const near = ['near', 'near/broken', 'near/empty', 'near/old', 'near/bare', 'near/none/below'];
  for (const name of near) tally.check(`the parser near ${name}`, namesIn('b', folder(name, 'x.js')) === 'a');
  tally.check('no parser near', namesIn('b', folder('far', 'x.js')) === 'b');
  tally.check('parsers of a folder', namesIn('b', folder('far', 'x.js'), { parsers: folder('near') }) === 'a');
  const [first] = parsersFor('acorn', folder('near', 'broken'));
  const [again] = parsersFor('acorn', folder('near'));
  tally.check('a parser is loaded once', first === again && first.version === '8.9.0');
}

// A text for which the nearest parser is too old is read by one further away, or by one of another name.
function checkTurns(tally, top) {
  const outer = path.join(top, 'outer');
  const inner = path.join(outer, 'inner');
  const filename = path.join(inner, 'x.js');
  writeModule(outer, 'acorn', '999.0.0', newer());
  writeModule(inner, 'acorn', '8.0.0', `module.exports = require(${placeOf('acorn')})`);
  tally.check('a newer parser further away', namesIn('using a = b', filename) === 'b');
  tally.check('the nearest for the rest', parsersFor('acorn', inner).next().value.version === '8.0.0');
  const tree = JSON.parse(treeOf('@a class B {}', { filename: path.join(top, 'x.js') }).json);
  tally.check('a parser of another name', tree.rows.some((row) => row[2] === 'Decorator'));
  const wanted = /x\.js:1:13: .*expected/;
  tally.check('what the parser that knows more refuses', wanted.test(refusalOf('@a class B {', path.join(top, 'x.js'))));
}

// What the parsers of a language are too old for is read by Babel's, where that is there.
const BY_BABEL = [
  ['x.js', '{ using a = b }', 'VariableDeclaration', 'using'],
  ['x.jsx', '<a>{() => { using b = c }}</a>', 'VariableDeclaration', 'using'],
  ['x.js', 'class A { static accessor b = 1 }', 'AccessorProperty', ''],
  ['x.ts', 'a satisfies B', 'TSSatisfiesExpression', ''],
  ['x.mjs', 'export @a class B {}', 'Decorator', ''],
];

function checkBabel(tally, top) {
  const [babel] = parsersIn(top);
  if (babel === undefined) return;
  for (const [name, source, kind, text] of BY_BABEL) {
    const tree = JSON.parse(treeOf(source, { filename: path.join(top, name) }).json);
    tally.check(`by Babel where others are too old: ${source}`, tree.rows.some((row) => row[2] === kind && row[5] === text));
  }
  tally.check('what Babel refuses in a text that others are too old for', /x\.js:1:20: Unexpected token/.test(refusalOf('{ using a = b } c =;', path.join(top, 'x.js'))));
  checkFaults(tally);
}

// Some Babels fail within on this.
function checkFaults(tally) {
  const line = refusalOf('new <any>A();', 'x.ts', { parser: 'babel' });
  tally.check('where Babel fails', line === 'a tree' || /^x\.ts(?::1:\d+)?: /.test(line), line);
}

function refusalOf(source, filename, options = {}) {
  try {
    treeOf(source, { filename, ...options });
    return 'a tree';
  } catch (error) {
    if (!(error instanceof Refusal)) throw error;
    return error.lineFor(filename);
  }
}

function checkParsers(tally) {
  const top = fs.mkdtempSync(path.join(os.tmpdir(), 'source-to-tree-'));
  try {
    checkNearest(tally, top);
    checkTurns(tally, top);
    checkBabel(tally, top);
  } finally {
    fs.rmSync(top, { recursive: true });
  }
}

module.exports = { checkParsers };
