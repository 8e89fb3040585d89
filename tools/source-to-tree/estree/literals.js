'use strict';
// Literals and templates. Babel has a type for each kind of literal, ESTree one for all.

const { wholeCharacters, withLineFeeds, numberBase } = require('../texts');
const { kindOf } = require('../kinds');
const { visit } = require('./visit');

const STRING = kindOf('StringLiteral');
const NUMBER = kindOf('NumericLiteral');
const BOOLEAN = kindOf('BooleanLiteral');

const spelling = (c, { start, end }) => c.text.slice(start, end);

function number(c, role, node) {
  const { start, end } = node;
  const raw = c.text.slice(start, end);
  c.spelled(role, NUMBER, start, end, 0, raw, [numberBase(raw)]);
}

const LITERALS = {
  string: (c, role, node) => c.spelled(role, STRING, node.start, node.end, 1, wholeCharacters(node.value)),
  number,
  boolean: (c, role, node) => c.writer.leaf(role, BOOLEAN, node.start, node.end, node.value ? 'true' : 'false'),
  null: (c, role, node) => c.leaf(role, 'NullLiteral', node),
  bigint: (c, role, node) => c.leaf(role, 'BigIntLiteral', node, spelling(c, node)),
  regex: (c, role, node) => c.leaf(role, 'RegExpLiteral', node, spelling(c, node)),
};

const BABEL_LITERALS = {
  StringLiteral: LITERALS.string,
  NumericLiteral: LITERALS.number,
  BooleanLiteral: LITERALS.boolean,
  NullLiteral: LITERALS.null,
  BigIntLiteral: LITERALS.bigint,
  RegExpLiteral: LITERALS.regex,
};

// Values that JSON has no words for come as null, so the other fields tell first, and of a number that is too large the text.
function familyOf(c, node) {
  if (node.regex) return 'regex';
  if (node.bigint) return 'bigint';
  if (node.value !== null) return typeof node.value;
  return /[.\d]/.test(c.text[c.start(node)]) ? 'number' : 'null';
}

visit.literal = (c, role, node) => {
  const visitor = BABEL_LITERALS[node.type] || LITERALS[familyOf(c, node)];
  visitor(c, role, node);
};

// The dialect of typescript-eslint counts the marks of a piece of a template to it.
function pieceSpan(c, node) {
  const start = c.start(node);
  const end = c.end(node);
  if (end - start === node.value.raw.length || !/^[`}]/.test(c.text[start])) return [start, end];
  const inner = withLineFeeds(c.text.slice(start + 1, end)).replace(/(`|\$\{)$/, '');
  if (inner !== withLineFeeds(node.value.raw)) return [start, end];
  return [start + 1, end - (c.text[end - 1] === '`' ? 1 : 2)];
}

visit.templateElement = (c, role, node) => {
  const { cooked, raw } = node.value;
  const [start, end] = pieceSpan(c, node);
  const text = cooked === null || cooked === undefined ? withLineFeeds(raw) : cooked;
  c.leafAt(role, 'TemplateElement', start, end, wholeCharacters(text));
};

module.exports = { BABEL_LITERALS };
