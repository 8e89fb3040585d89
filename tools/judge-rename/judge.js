'use strict';
// One renaming in a real file, and what is wrong with it.

const { declarationsOf } = require('../rename/analysed.js');
const { isSpecial } = require('../rename/identifier.js');
const { RenameRefusal } = require('../rename/refusal.js');
const { renameSymbol } = require('../rename/symbol.js');
const { tiedOtherwise } = require('./eslint.js');
const { TypeScriptOpinion } = require('./typescript.js');

const isTyped = ({ tree }) => ['ts', 'tsx', 'dts'].includes(tree.lang);

function attempt(analysis, symbol, name) {
  try {
    return { done: renameSymbol(analysis, symbol, name) };
  } catch (error) {
    if (!(error instanceof RenameRefusal)) {
      throw error;
    }
    return { refused: error };
  }
}

function secondOpinion(analysis, symbol, done) {
  if (isTyped(analysis)) {
    const opinion = analysis.once('TypeScript', () => new TypeScriptOpinion(analysis.options.filename, analysis.source));
    const places = done.edits.map(({ start }) => analysis.positions.indexOf(start));
    const comments = analysis.tree.comments.map(([start, end]) => [analysis.positions.indexOf(start), analysis.positions.indexOf(end)]);
    const declarations = declarationsOf(symbol).map(({ start }) => analysis.positions.indexOf(start));
    return opinion.differsFrom(declarations, places, comments);
  }
  return analysis.tree.lang === 'js' ? tiedOtherwise(analysis.source, done.text, analysis.tree.goal, done.placeBefore) : undefined;
}

// The text that comes of renaming back is the first one, where nothing was written out.
function renamedBack(analysis, symbol, name, done) {
  const back = attempt(done.renamed, done.renamed.report.symbols[symbol.id], symbol.name);
  if (back.refused !== undefined && isSpecial(symbol.name)) {
    return null; // TypeScript's parser takes names that the language doesn't
  }
  if (back.refused !== undefined) {
    return `not renamed back: ${back.refused.message}`;
  }
  const isPlain = done.edits.every(({ old, text }) => text === name && old === symbol.name);
  return isPlain && back.done.text !== analysis.source ? 'renaming back gives another text' : null;
}

// `{ outcome, second, plain, wrong }`: done or refused, whether there was a second opinion, and what is wrong, or null.
function judge(analysis, symbol, name) {
  if (name === symbol.name) {
    return { outcome: 'same', wrong: null };
  }
  const { done, refused } = attempt(analysis, symbol, name);
  if (refused !== undefined) {
    return { outcome: 'refused', reason: refused.message, wrong: refused.line === null ? `a refusal without a place: ${refused.message}` : null };
  }
  const other = secondOpinion(analysis, symbol, done);
  return { outcome: 'done', second: other !== undefined, wrong: other || renamedBack(analysis, symbol, name, done) };
}

module.exports = { judge };
