'use strict';
// Why the meaning of names keeps a symbol from its new name, in words.

const { KIND, TEXT } = require('../edits/rows.js');
const { RenameRefusal } = require('./refusal.js');
const { declarationsOf } = require('./text-tables.js');

const starts = (symbol) => new Set(symbol === null ? [] : declarationsOf(symbol).map(({ start }) => start));

// Where a symbol is declared: the first declaration that another one hasn't.
function placeOfOther(analysis, symbol, known) {
  const spans = declarationsOf(symbol);
  return analysis.placeOfSpan(spans.find(({ start }) => !known.has(start)) || spans[0]);
}

// What a use would mean that means something else now.
function useInWords({ analysis, symbol, name, node, after }) {
  const isOwn = analysis.symbolOf(node) === symbol;
  const own = starts(symbol);
  if (!isOwn) {
    return `\`${analysis.rows[node][TEXT]}\` here would mean the renamed \`${symbol.name}\` of ${analysis.placeOfSpan(symbol.span)}`;
  }
  return after === null
    ? `\`${name}\` here would mean nothing that is declared`
    : `\`${name}\` here would mean the one of ${placeOfOther(analysis, after, own)}`;
}

// What a declaration would declare that declares something else now.
function declarationInWords({ analysis, symbol, name, node, after }) {
  const before = analysis.symbolOf(node);
  const merged = after === null ? [] : declarationsOf(after);
  const known = starts(before);
  const other = merged.find(({ start }) => !known.has(start));
  if (other === undefined) {
    return `\`${analysis.rows[node][TEXT]}\` would be another variable`;
  }
  const named = before === symbol ? name : analysis.rows[node][TEXT];
  return `\`${named}\` here and at ${analysis.placeOfSpan(other)} would be one variable`;
}

// A node that would mean or declare `after`, a symbol of the renamed program or null.
function differing({ analysis, symbol, name, node, after }) {
  const inWords = analysis.referenceAt.has(node) ? useInWords : declarationInWords;
  return new RenameRefusal(inWords({ analysis, symbol, name, node, after }), analysis.spanOf(node));
}

function rowAround(analysis, node, kind) {
  const { rows, parents } = analysis;
  let at = node;
  while (at >= 0 && rows[at][KIND] !== kind) {
    at = parents[at];
  }
  return at;
}

// Why a node's name is fixed, in words.
function fixed({ analysis, node }) {
  const { rows, parents } = analysis;
  if (rows[node][KIND] === 'TSEnumMember' || rows[parents[node]][KIND] === 'TSEnumMember') {
    return new RenameRefusal('the name is seen by others: a member of an enum', analysis.spanOf(node));
  }
  const at = rowAround(analysis, node, 'ExportDeclaration');
  const place = at < 0 ? '' : ` at ${analysis.placeOf(at)}`;
  return new RenameRefusal(`the name is seen by others: exported${place}`, analysis.spanOf(node));
}

module.exports = { differing, fixed };
