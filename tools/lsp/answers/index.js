'use strict';
// What answers each request: `answer(document, params, { client, notice })`.

const { Refusal } = require('../../analyse/refusal.js');
const { codeAction, resolveAction } = require('./actions.js');
const { diagnostics } = require('./diagnostics.js');
const { hover } = require('./hover.js');
const { definition, documentHighlight, references } = require('./navigation.js');
const { documentSymbol } = require('./outline.js');
const { prepareRename, rename } = require('./rename.js');

// A text that has no tables has no answer either; that is told by a diagnostic, and not at each move of the cursor.
function ofTables(answer) {
  return async (document, params, context) => {
    try {
      return await answer(document, params, context);
    } catch (error) {
      if (error instanceof Refusal) {
        return null;
      }
      throw error;
    }
  };
}

const ANSWERS = {
  diagnostics,
  tables: ofTables(async (document) => void await document.names()),
  'textDocument/definition': ofTables(definition),
  'textDocument/references': ofTables(references),
  'textDocument/documentHighlight': ofTables(documentHighlight),
  'textDocument/hover': ofTables(hover),
  'textDocument/documentSymbol': ofTables(documentSymbol),
  'textDocument/codeAction': ofTables(codeAction),
  'codeAction/resolve': resolveAction,
  'textDocument/prepareRename': prepareRename,
  'textDocument/rename': rename,
};

module.exports = { ANSWERS };
