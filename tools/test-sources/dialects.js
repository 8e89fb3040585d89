'use strict';
// Dialects of ESTree: that of Babel, where its parser is installed, and spans as typescript-eslint gives them. Their trees are
// those that the other ways give.

const { parsersFor } = require('../source-to-tree/parsers');
const acorn = require('../source-to-tree/ways/acorn');
const { parsersIn } = require('../source-to-tree/ways/babel');
const { convert, checkRows } = require('./small');
const { JS, ONE_WAY, NEWER } = require('./cases');

function checkTree(tally, tree, [name, filename, source, rows]) {
  const usual = convert(source, { filename });
  const goal = usual.json && JSON.parse(usual.json).goal;
  const { json, refused } = convert(source, { filename, parser: 'estree', tree, goal });
  if (!tally.check(`${name}: taken`, json !== undefined, refused)) return;
  if (usual.json === undefined) checkRows(tally, name, source, json, rows);
  else tally.check(`${name}: the usual tree`, json.equals(usual.json), `\n${json}\n${usual.json}`);
}

// A source that Babel reads has by it the tree that it has by the parser of its language.
function checkWithBabel(tally, [name, filename, source, rows]) {
  const usual = convert(source, { filename });
  const { json, refused } = convert(source, { filename, parser: 'babel' });
  if (json === undefined) return isOlder(refused) || tally.check(`${name} by Babel: read`, false, refused);
  if (rows.length > 0) checkRows(tally, `${name} by Babel`, source, json, rows);
  return tally.check(`${name} by Babel: the usual tree`, usual.json !== undefined && json.equals(usual.json), usual.refused || `\n${json}\n${usual.json}`);
}

const isOlder = (line) => /doesn't know/.test(line);

// Small sources that Babel refuses or reads in another way.
const NOT_BABEL = new Set(['enums', 'options of imported types', 'names of JSDoc types', 'decorators behind export']);

// Each node with `range` in place of `start` and `end`, and pieces of templates with the marks round them.
function withRanges(node, text) {
  if (Array.isArray(node)) return node.map((part) => withRanges(part, text));
  if (node === null || typeof node !== 'object' || node instanceof RegExp) return node;
  const { start, end, ...rest } = node;
  const made = Object.fromEntries(Object.entries(rest).map(([field, value]) => [field, withRanges(value, text)]));
  if (start === undefined) return made;
  const wide = node.type === 'TemplateElement' ? [1, text[end] === '`' ? 1 : 2] : [0, 0];
  return { ...made, range: [start - wide[0], end + wide[1]] };
}

function checkRanges(tally) {
  const [parser] = parsersFor('acorn', __dirname);
  for (const one of JS.filter(([, filename, source]) => filename === 'x.js' && !/^\ufeff|import|export/.test(source))) {
    const { ast, comments } = acorn.read(one[2], { lang: 'js', folder: __dirname, parser });
    checkTree(tally, withRanges({ ...ast, comments: comments.map(commentNode) }, one[2]), [`${one[0]} with ranges`, ...one.slice(1)]);
  }
}

// Each node with its place in `range`, and another in `start` and `end`.
function withBoth(node) {
  if (Array.isArray(node)) return node.map(withBoth);
  if (node === null || typeof node !== 'object' || node instanceof RegExp) return node;
  const made = Object.fromEntries(Object.entries(node).map(([field, value]) => [field, withBoth(value)]));
  return made.start === undefined ? made : { ...made, range: [made.start, made.end], start: 0, end: 0 };
}

function checkBoth(tally) {
  const [parser] = parsersFor('acorn', __dirname);
  const source = 'let a = `b${c}`; /* d */ class E { #f = [, g] }';
  const { ast, comments } = acorn.read(source, { lang: 'js', folder: __dirname, parser });
  checkTree(tally, withBoth({ ...ast, comments: comments.map(commentNode) }), ['places told twice', 'x.js', source, []]);
}

// JSON has no words for large numbers and integers, nor for regular expressions.
function checkJson(tally) {
  const [parser] = parsersFor('acorn', __dirname);
  const source = '[1e999, .9e999, null, 1n, /a/, 1, true]';
  const { ast } = acorn.read(source, { lang: 'js', folder: __dirname, parser });
  const json = JSON.stringify(ast, (field, value) => (typeof value === 'bigint' ? null : value));
  checkTree(tally, JSON.parse(json), ['values that JSON has no words for', 'x.js', source, []]);
}

const commentNode = ({ block, start, end }) => ({ type: block ? 'Block' : 'Line', start, end });

function checkDialects(tally) {
  checkRanges(tally);
  checkBoth(tally);
  checkJson(tally);
  const [babel] = parsersIn(__dirname);
  if (babel === undefined) {
    console.log("not tried: the dialect of Babel, whose parser isn't installed");
    return;
  }
  for (const one of [...JS, ...ONE_WAY, ...NEWER]) if (!NOT_BABEL.has(one[0])) checkWithBabel(tally, one);
}

module.exports = { checkDialects };
