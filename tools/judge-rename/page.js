'use strict';
// What a page foresees of a renaming, and what the command says of it.

const { foresee } = require('../rename/foresee.js');
const { RenameRefusal } = require('../rename/refusal.js');
const { renameSymbol } = require('../rename/symbol.js');

const LEFT = /bolgwyr rename has one$/;

function attempt(run) {
  try {
    return { text: run().text };
  } catch (error) {
    if (!(error instanceof RenameRefusal)) {
      throw error;
    }
    return { refused: `${error.line}:${error.column} ${error.message}` };
  }
}

// `{ outcome, reason, wrong }`, as judge.js gives it. A refusal of both for other reasons is told by its kind, and isn't wrong.
function judgePage(analysis, symbol, name) {
  if (name === symbol.name) {
    return { outcome: 'same', wrong: null };
  }
  const page = attempt(() => foresee(analysis, symbol, name));
  if (page.refused !== undefined && LEFT.test(page.refused)) {
    return { outcome: 'refused', reason: 'left to the command', wrong: null };
  }
  const command = attempt(() => renameSymbol(analysis, symbol, name));
  if (page.text !== command.text) {
    return { outcome: 'refused', wrong: `the page: ${page.refused ?? 'done'}, the command: ${command.refused ?? 'done'}` };
  }
  if (page.text !== undefined) {
    return { outcome: 'done', wrong: null };
  }
  return { outcome: 'refused', reason: page.refused === command.refused ? 'in the same words' : `${page.refused} / ${command.refused}`, wrong: null };
}

module.exports = { judgePage };
