'use strict';
// Clients by what they take.

const CLIENTS = {
  plain: {},
  rich: {
    general: { positionEncodings: ['utf-16'] },
    textDocument: {
      publishDiagnostics: { tagSupport: { valueSet: [1, 2] }, relatedInformation: true },
      documentSymbol: { hierarchicalDocumentSymbolSupport: true },
      hover: { contentFormat: ['markdown', 'plaintext'] },
      rename: { prepareSupport: true },
      codeAction: { codeActionLiteralSupport: { codeActionKind: { valueSet: [] } }, disabledSupport: true },
    },
    workspace: { workspaceEdit: { documentChanges: true } },
  },
  resolving: {
    general: { positionEncodings: ['utf-32', 'utf-8', 'utf-16'] },
    textDocument: { codeAction: { codeActionLiteralSupport: {}, dataSupport: true, resolveSupport: { properties: ['edit'] } } },
  },
};

module.exports = { CLIENTS };
