'use strict';
// What is known of the name below the pointer.

const { plural } = require('../../analyse/page/names.js');
const { KIND, ROLE, TEXT } = require('../../edits/rows.js');
const { declarationsOf } = require('../../rename/analysed.js');
const { kindWord, scopeWord } = require('../kinds.js');
const { nameAt } = require('./navigation.js');

const FLAGS = {
  FunctionScopedVariable: 'scoped to its function',
  BlockScopedVariable: 'scoped to its block',
  ConstVariable: 'constant',
  CatchVariable: 'caught',
  Ambient: 'ambient',
  TypeImport: 'imported as a type',
  NamespaceModule: 'without values',
  FunctionExpression: 'name of a function expression',
  AsyncOrGeneratorFunction: 'async or a generator',
};

const wordsOf = (flags) => flags.map((flag) => FLAGS[flag]).filter((word) => word !== undefined);

// The name of what opens a scope, with a space before it; empty where it has none.
function ownName(analysed, node) {
  const { rows, parents } = analysed;
  const named = analysed.nameOf(node);
  if (named >= 0) {
    return ` \`${rows[named][TEXT]}\``;
  }
  const key = rows[node][ROLE] === 'value' ? parents[node] + 1 : -1;
  return key >= 0 && rows[key][ROLE] === 'key' ? ` \`${rows[key][TEXT]}\`` : '';
}

function scopeWords(analysed, id) {
  const { node, parent } = analysed.report.scopes[id];
  if (parent === null) {
    return `at the top of the ${analysed.tree.goal === 'module' ? 'module' : 'script'}`;
  }
  return `in the ${scopeWord(analysed.rows[node][KIND])}${ownName(analysed, node)} at ${analysed.placeOf(node)}`;
}

function usesWords(references) {
  const writes = references.filter(({ flags }) => flags.includes('Write')).length;
  const types = references.filter(({ flags }) => flags.every((flag) => flag !== 'Write' && flag !== 'Read')).length;
  const reads = references.filter(({ flags }) => flags.includes('Read')).length;
  const parts = [[reads, 'read'], [writes, 'write'], [types, 'as a type', 'as a type']].filter(([count]) => count > 0);
  const told = parts.map(([count, one, many]) => plural(count, one, many)).join(', ');
  return references.length === 0 ? 'never used' : `${plural(references.length, 'use')}: ${told}`;
}

function symbolLines(analysed, symbol) {
  const declared = declarationsOf(symbol).length;
  const flags = [kindWord(analysed, symbol), ...wordsOf(symbol.flags), ...(declared > 1 ? [`declared ${declared} times`] : [])];
  const references = symbol.references.map((id) => analysed.report.references[id]);
  return [flags.join(', '), scopeWords(analysed, symbol.scope), usesWords(references)];
}

function freeLines(names, name) {
  return ['not declared in this file', usesWords(names.allOf(name).map(({ reference }) => reference))];
}

function contentOf(title, lines, takesMarkdown) {
  return takesMarkdown
    ? { kind: 'markdown', value: [`**\`${title}\`**`, ...lines].join('  \n') }
    : { kind: 'plaintext', value: [title, ...lines].join('\n').replaceAll('`', '') };
}

async function hover(document, params, { client }) {
  const { names, name } = await nameAt(document, params);
  if (name === null) {
    return null;
  }
  const analysed = await document.analysed();
  const lines = name.symbol === null ? freeLines(names, name) : symbolLines(analysed, name.symbol);
  return { contents: contentOf(name.name, lines, client.takesMarkdown), range: document.places.rangeOf(name) };
}

module.exports = { hover };
