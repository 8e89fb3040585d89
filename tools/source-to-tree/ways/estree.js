'use strict';
// Takes the ESTree that another tool made of the text.

const { Refusal } = require('../refusal');
const { ForeignConversion } = require('../estree');

const GOALS = ['script', 'module', 'commonjs'];

function read(text, { tree }) {
  if (!tree || (tree.type !== 'Program' && tree.type !== 'File')) throw new Refusal('not an ESTree: its top is neither Program nor File');
  const { sourceType } = tree.program || tree;
  return { ast: tree, goal: GOALS.includes(sourceType) ? sourceType : undefined };
}

function commentsOf({ ast }) {
  const list = ast.comments || (ast.program && ast.program.comments) || [];
  return list.filter(({ type }) => type === 'Line' || type === 'Block' || type === 'CommentLine' || type === 'CommentBlock')
    .map((node) => ({ block: node.type.endsWith('Block'), start: node.range ? node.range[0] : node.start, end: node.range ? node.range[1] : node.end }))
    .sort((a, b) => a.start - b.start);
}

// What has no nodes that are written, or leads back.
const APART = new Set(['range', 'loc', 'parent', 'tokens', 'comments']);

// Copies in which each node has its places as `start` and `end`; where it has both, `range` is what tools keep right. What was copied is in
// `copies`, since nodes of some tools lead to others round them.
function withPlaces(value, copies) {
  if (Array.isArray(value)) return value.map((entry) => withPlaces(entry, copies));
  if (value === null || typeof value !== 'object' || typeof value.type !== 'string') return value;
  const known = copies.get(value);
  if (known !== undefined) return known;
  const { range = [value.start, value.end] } = value;
  const copy = { ...value, start: range[0], end: range[1] };
  copies.set(value, copy);
  for (const key of Object.keys(value)) if (typeof value[key] === 'object' && !APART.has(key)) copy[key] = withPlaces(value[key], copies);
  return copy;
}

// A tree from elsewhere may lack what its type promises.
function write(parsed, text, writer, annotations) {
  try {
    new ForeignConversion(text, writer, annotations).program(withPlaces(parsed.ast, new Map()));
  } catch (error) {
    throw error instanceof TypeError ? new Refusal(`not an ESTree: ${error.message}`) : error;
  }
  return commentsOf(parsed).filter(({ start }) => start > 0 || !text.startsWith('#!'));
}

module.exports = { parsersIn: () => [null], read, write };
