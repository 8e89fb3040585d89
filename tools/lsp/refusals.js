'use strict';
// What a request is refused with.

const { Refusal } = require('../analyse/refusal.js');
const { RunFault, UsageFault } = require('../bolgwyr/faults.js');
const { RenameRefusal } = require('../rename/refusal.js');
const { ResponseFault } = require('./faults.js');

const EXPORTED = /^the name is seen by others: exported/;
const OTHER_MODULES = '; bolgwyr rename --project renames it in all modules that use it';

function placed(message, position, data) {
  const place = position === null ? '' : `line ${position.line + 1}: `;
  return new ResponseFault('requestFailed', `${place}${message}`, data);
}

function renameFault({ message, span }, { uri, places }) {
  const words = EXPORTED.test(message) ? message + OTHER_MODULES : message;
  return span === null ? placed(words, null) : placed(words, places.positionOf(span.start), { uri, range: places.rangeOf(span) });
}

function textFault({ message, start }, { uri, places }) {
  return start === undefined ? placed(message, null) : placed(message, places.positionOf(start), { uri, range: places.wordAt(start) });
}

// What makes a fault of the protocol of an error.
const WAYS = [
  [RenameRefusal, renameFault],
  [Refusal, textFault],
  [UsageFault, ({ message }) => new ResponseFault('invalidParams', message)],
  [RunFault, ({ message }) => new ResponseFault('internalError', message)],
  [ResponseFault, (fault) => fault],
];

// The fault that an error comes to.
function faultOf(error, document) {
  const way = WAYS.find(([kind]) => error instanceof kind);
  return way === undefined ? new ResponseFault('internalError', error.stack) : way[1](error, document);
}

module.exports = { faultOf };
