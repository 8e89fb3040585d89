'use strict';
// The ids of a page's elements: of each file but the first they begin with its number.

const prefixOf = (file) => (file === 0 ? '' : `m${file}-`);

const TARGET = /^(?:m([1-9]\d*)-)?(symbol|ref|scope|free)-(\d+)(?:-\d+)?$/;

// What an id names, `{ file, type, number, id }`, or null.
function targetOf(id) {
  const found = TARGET.exec(id);
  return found === null ? null : { file: Number(found[1] || 0), type: found[2], number: Number(found[3]), id };
}

// The element of a symbol's n-th declaration.
function declarationId(file, symbol, place) {
  return `${prefixOf(file)}symbol-${symbol}${place === 0 ? '' : `-${place}`}`;
}

module.exports = { declarationId, prefixOf, targetOf };
