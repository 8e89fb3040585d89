'use strict';
// Literals and templates.

const { Refusal } = require('../refusal');
const { wholeCharacters, withLineFeeds, numberBase, stringValue, uselessEscape } = require('../texts');
const { visit } = require('./visit');

// The compiler leaves the octal escapes of old scripts as they are spelled.
visit.string = (c, role, node) => {
  const start = c.opaque(node);
  const raw = c.text.slice(start + 1, node.end - 1);
  c.leaf(role, 'StringLiteral', node, wholeCharacters(/\\[0-9]/.test(raw) ? stringValue(raw) : node.text));
};

function spelled(kind, marks) {
  return (c, role, node) => {
    const raw = c.text.slice(c.start(node), node.end);
    c.leaf(role, kind, node, raw, marks && marks(raw));
  };
}

// The text of a piece: its value, or its spelling where an escape has none, which only the pieces behind a tag may have.
function pieceText(c, node, { start, end, isTagged }) {
  const raw = c.text.slice(start, end);
  const useless = uselessEscape(raw);
  if (useless >= 0 && isTagged) {
    c.allowFaults(start, end);
    return withLineFeeds(raw);
  }
  if (useless >= 0 && /[0-9]/.test(raw[useless + 1])) throw new Refusal('Octal escape sequences are not allowed in templates.', start + useless);
  // Behind a tag the compiler leaves some escapes in braces as they are spelled.
  return isTagged && raw.includes('\\u{') ? stringValue(withLineFeeds(raw)) : node.text;
}

// A piece of a template, without the marks at its ends.
function templateElement(c, node, behind, isTagged) {
  const start = c.opaque(node) + 1;
  const end = node.end - behind;
  c.leafAt('quasis', 'TemplateElement', start, end, wholeCharacters(pieceText(c, node, { start, end, isTagged })));
}

// The pieces of a template, and the list of what stands between them.
visit.templateParts = (c, node, isTagged = false) => {
  if (node.templateSpans === undefined) {
    templateElement(c, node, 1, isTagged);
    return [];
  }
  templateElement(c, node.head, 2, isTagged);
  const spans = node.templateSpans;
  spans.forEach(({ literal }, i) => templateElement(c, literal, i === spans.length - 1 ? 1 : 2, isTagged));
  return spans;
};

visit.template = (c, role, node, isTagged = false) => {
  c.open(role, 'TemplateLiteral', node);
  for (const span of visit.templateParts(c, node, isTagged)) visit.expression(c, 'expressions', span.expression);
  c.close();
};

function regularExpression(c, role, node) {
  c.opaque(node);
  spelled('RegExpLiteral')(c, role, node);
}

const LITERALS = {
  TrueKeyword: (c, role, node) => c.leaf(role, 'BooleanLiteral', node, 'true'),
  FalseKeyword: (c, role, node) => c.leaf(role, 'BooleanLiteral', node, 'false'),
  NullKeyword: (c, role, node) => c.leaf(role, 'NullLiteral', node),
  NumericLiteral: spelled('NumericLiteral', (raw) => [numberBase(raw)]),
  BigIntLiteral: spelled('BigIntLiteral'),
  StringLiteral: visit.string,
  RegularExpressionLiteral: regularExpression,
  NoSubstitutionTemplateLiteral: visit.template,
  TemplateExpression: visit.template,
};

module.exports = { LITERALS };
