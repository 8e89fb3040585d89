'use strict';
// What the script of a page knows of scopes, symbols and references of each file: lists by their ids.

function scopeData(scope) {
  return [scope.parent, scope.kind, scope.flags.join(' '), scope.span.line, scope.lastLine];
}

function symbolData(symbol) {
  const places = symbol.declarations.map((span) => [span.line, span.column]);
  return [symbol.name, symbol.flags.join(' '), symbol.scope, places, symbol.references, symbol.pure];
}

function referenceData(entry) {
  return [entry.name, entry.flags.join(' '), entry.scope, entry.symbol, entry.span.line, entry.span.column];
}

// An import: the symbol that it binds, what it takes from where, the file that it ends in, and the element of that, or null.
const importData = ({ symbol, name, from, end, target }) => [symbol, name, from, end, target];

function fileData(model) {
  return {
    name: model.file,
    scopes: model.scopes.map(scopeData),
    symbols: model.symbols.map(symbolData),
    references: model.references.map(referenceData),
    free: model.free.map((entry) => [entry.name, entry.references]),
    imports: model.imports.map(importData),
  };
}

module.exports = { fileData };
