'use strict';
// What the client takes, and what the server offers.

const { version } = require('../../package.json');

const ENCODINGS = ['utf-16', 'utf-8'];

// Of the encodings that the client names the first that is known. Each client takes UTF-16.
function encodingOf(offered) {
  return (Array.isArray(offered) ? offered : []).find((encoding) => ENCODINGS.includes(encoding)) ?? ENCODINGS[0];
}

// What answers depend on.
function clientOf({ general, textDocument, workspace } = {}) {
  const action = textDocument?.codeAction;
  return {
    encoding: encodingOf(general?.positionEncodings),
    tags: textDocument?.publishDiagnostics?.tagSupport?.valueSet ?? [],
    takesRelated: textDocument?.publishDiagnostics?.relatedInformation === true,
    takesVersionedEdits: workspace?.workspaceEdit?.documentChanges === true,
    takesTree: textDocument?.documentSymbol?.hierarchicalDocumentSymbolSupport === true,
    takesMarkdown: (textDocument?.hover?.contentFormat ?? []).includes('markdown'),
    takesActions: action?.codeActionLiteralSupport !== undefined,
    resolvesActions: action?.resolveSupport?.properties?.includes('edit') === true && action.dataSupport === true,
    takesDisabled: action?.disabledSupport === true,
    preparesRename: textDocument?.rename?.prepareSupport === true,
  };
}

const INCREMENTAL = 2;

const ACTION_KINDS = ['quickfix', 'refactor.rewrite'];

// The answer to `initialize`.
function offerTo(client) {
  return {
    capabilities: {
      positionEncoding: client.encoding,
      textDocumentSync: { openClose: true, change: INCREMENTAL, save: { includeText: false } },
      definitionProvider: true,
      referencesProvider: true,
      documentHighlightProvider: true,
      documentSymbolProvider: true,
      hoverProvider: true,
      renameProvider: client.preparesRename ? { prepareProvider: true } : true,
      codeActionProvider: client.takesActions ? { codeActionKinds: ACTION_KINDS, resolveProvider: client.resolvesActions } : false,
    },
    serverInfo: { name: 'bolgwyr', version },
  };
}

module.exports = { clientOf, offerTo };
