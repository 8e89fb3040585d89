'use strict';
// The name of a document's file, which tells language, goal and settings.

const { fileURLToPath } = require('url');

// Where the name tells no language, what the client says of it does.
const ENDINGS = { javascript: '.js', javascriptreact: '.jsx', typescript: '.ts', typescriptreact: '.tsx' };
const KNOWN = /\.[cm]?[jt]sx?$/i;

function pathOf(uri) {
  try {
    return fileURLToPath(uri);
  } catch {
    return null;
  }
}

// A document that is no file stands for one in the server's folder.
function nameOf(uri, languageId) {
  const name = pathOf(uri) ?? 'untitled';
  return KNOWN.test(name) ? name : name + (ENDINGS[languageId] ?? '.js');
}

module.exports = { nameOf };
