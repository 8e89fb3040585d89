'use strict';
// The requests on a document, and which document each is on.

const { ResponseFault } = require('./faults.js');
const { isPosition, isRange } = require('./documents.js');

const POSITION = { position: isPosition };

// What the parameters of each method have to have besides the document.
const METHODS = {
  'textDocument/definition': POSITION,
  'textDocument/references': POSITION,
  'textDocument/documentHighlight': POSITION,
  'textDocument/hover': POSITION,
  'textDocument/prepareRename': POSITION,
  'textDocument/rename': { ...POSITION, newName: (name) => typeof name === 'string' },
  'textDocument/documentSymbol': {},
  'textDocument/codeAction': { range: isRange },
  'codeAction/resolve': { data: (data) => typeof data?.uri === 'string' },
};

// The URI of the document that a request is on, whose parameters are as they should be.
function uriOf(method, params) {
  if (!Object.hasOwn(METHODS, method)) {
    throw new ResponseFault('methodNotFound', `there is no method ${method}`);
  }
  const wrong = Object.entries(METHODS[method]).find(([name, holds]) => !holds(params[name]));
  if (wrong !== undefined) {
    throw new ResponseFault('invalidParams', `${method}: ${wrong[0]} isn't as it should be`);
  }
  return method === 'codeAction/resolve' ? params.data.uri : params.textDocument?.uri;
}

module.exports = { METHODS, uriOf };
