'use strict';
// By what findings are kept: the bytes of a file and all else that they depend on.

const fs = require('fs');
const path = require('path');

// Parsers that a project may have of its own.
const PARSERS = ['acorn', 'acorn-jsx', 'typescript', '@babel/parser', '@babel/standalone'];

// What the name of a file tells of how it is read: all from its first dot on.
const endingOf = (name) => path.basename(name).replace(/^[^.]*/, '');

const texts = new WeakMap();

// Settings as a text; many files have the same.
function textOf(settings) {
  if (!texts.has(settings)) {
    texts.set(settings, JSON.stringify(settings));
  }
  return texts.get(settings);
}

const parsers = new Map();

// Which parsers the files of a folder find in it and around it.
function parsersFor(folder) {
  if (!parsers.has(folder)) {
    const around = path.dirname(folder);
    const places = PARSERS.map((name) => path.join(folder, 'node_modules', name, 'package.json'));
    const own = places.map((place) => fs.statSync(place, { throwIfNoEntry: false })).map((found, at) => found && `${places[at]} ${found.mtimeMs}`);
    parsers.set(folder, `${own.filter(Boolean).join()}${around === folder ? '' : parsersFor(around)}`);
  }
  return parsers.get(folder);
}

// `stamp` stands for the tools and programs.
function keyOf(stamp, bytes, { name, settings }) {
  const rest = [stamp, endingOf(name), parsersFor(path.dirname(path.resolve(name))), textOf(settings)];
  return require('crypto').createHash('sha256').update(rest.join('\0')).update('\0').update(bytes).digest('base64');
}

module.exports = { keyOf };
