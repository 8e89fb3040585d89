'use strict';
// What the page knows of its files: scopes, symbols, references, free names and imports, by the number of the file.

const { declarationId, prefixOf, targetOf } = require('../ids.js');

const files = JSON.parse(document.getElementById('data').textContent);

function scopeOf(file, id) {
  const [parent, kind, flags, line, lastLine] = files[file].scopes[id];
  return { id, parent, kind, flags, line, lastLine };
}

function symbolOf(file, id) {
  const [name, flags, scope, places, uses, pure] = files[file].symbols[id];
  return { id, name, flags, scope, places, uses, pure };
}

function referenceOf(file, id) {
  const [name, flags, scope, symbol, line, column] = files[file].references[id];
  return { id, name, flags, scope, symbol, line, column };
}

function freeOf(file, id) {
  const [name, uses] = files[file].free[id];
  return { name, uses };
}

const importObject = ([symbol, name, from, end, target]) => ({ symbol, name, from, end, target });

// What a symbol imports, or undefined.
function importOf(file, symbol) {
  const found = files[file].imports.find(([own]) => own === symbol);
  return found === undefined ? undefined : importObject(found);
}

// The imports of other files that lead to an element, each with its file.
function importersOf(id) {
  return files.flatMap(({ imports }, file) => imports.map((one) => ({ file, ...importObject(one) }))).filter(({ target }) => target === id);
}

const LISTS = { symbol: 'symbols', ref: 'references', scope: 'scopes', free: 'free' };

// The target that an id names, where there is one.
function knownTarget(id) {
  const target = targetOf(id);
  return target !== null && target.file < files.length && target.number < files[target.file][LISTS[target.type]].length ? target : null;
}

// The number of the free name that a reference has, or null.
function freeNumberOf({ file, type, number }) {
  if (type === 'free') {
    return number;
  }
  const place = type === 'ref' ? files[file].free.findIndex((entry) => entry[1].includes(number)) : -1;
  return place === -1 ? null : place;
}

// The symbol that a target means, or null.
function symbolIdOf({ file, type, number }) {
  if (type === 'symbol') {
    return number;
  }
  return type === 'ref' ? referenceOf(file, number).symbol : null;
}

function usesOf(file, uses) {
  return uses.map((use) => {
    const { line, column } = referenceOf(file, use);
    return { id: `${prefixOf(file)}ref-${use}`, line, column, declares: false };
  });
}

// The elements of all places of a name, in the order of the source.
function placesOf(target) {
  const { file } = target;
  const symbol = symbolIdOf(target);
  if (symbol !== null) {
    const { places, uses } = symbolOf(file, symbol);
    const declared = places.map(([line, column], place) => ({ id: declarationId(file, symbol, place), line, column, declares: true }));
    return [...declared, ...usesOf(file, uses)].sort((left, right) => left.line - right.line || left.column - right.column);
  }
  const free = freeNumberOf(target);
  return free === null ? [] : usesOf(file, freeOf(file, free).uses);
}

module.exports = { files, freeNumberOf, freeOf, importOf, importersOf, knownTarget, placesOf, referenceOf, scopeOf, symbolIdOf, symbolOf };
