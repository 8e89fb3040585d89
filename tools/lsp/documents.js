'use strict';
// The documents that the client has open.

const { ResponseFault } = require('./faults.js');
const { changeLines, splitLines } = require('./lines.js');
const { nameOf } = require('./file-names.js');

// Each state of each document has a number of its own: versions are the client's, and may come again after a document was closed.
let revisions = 0;

function nextRevision() {
  revisions += 1;
  return revisions;
}

const isNumber = (value) => Number.isInteger(value) && value >= 0;
const isPosition = (value) => isNumber(value?.line) && isNumber(value?.character);
const isRange = (value) => isPosition(value?.start) && isPosition(value?.end);

function checkChange({ range, text }) {
  if (typeof text !== 'string' || (range !== undefined && !isRange(range))) {
    throw new ResponseFault('invalidParams', 'a change has a text, and mostly a range');
  }
}

class Documents {
  constructor(encoding) {
    this.encoding = encoding;
    this.open = new Map();
  }

  add({ uri, languageId, version, text }) {
    if (typeof uri !== 'string' || typeof text !== 'string') {
      throw new ResponseFault('invalidParams', 'a document has a URI and a text');
    }
    const document = { uri, version, name: nameOf(uri, languageId), lines: splitLines(text), revision: nextRevision() };
    this.open.set(uri, document);
    return document;
  }

  get(uri) {
    const document = this.open.get(uri);
    if (document === undefined) {
      throw new ResponseFault('invalidParams', `${typeof uri === 'string' ? uri : 'a document without a URI'} isn't open`);
    }
    return document;
  }

  has(uri) {
    return this.open.has(uri);
  }

  // Changes come one after the other, each by the positions that the one before made.
  change({ uri, version }, changes) {
    const document = this.get(uri);
    changes.forEach(checkChange);
    for (const change of changes) {
      document.lines = change.range === undefined ? splitLines(change.text) : changeLines(document.lines, change, this.encoding);
    }
    document.version = version;
    document.revision = nextRevision();
    return document;
  }

  remove(uri) {
    this.open.delete(uri);
  }
}

const textOf = (document) => document.lines.join('');

module.exports = { Documents, isPosition, isRange, textOf };
