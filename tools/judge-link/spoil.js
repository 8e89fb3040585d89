'use strict';
// Spoils names and paths in files, and says where the findings on them have to stand.

const fs = require('fs');
const { Positions } = require('../analyse/positions.js');
const { isRelative } = require('../link/kinds.js');

// Where something can be spoiled: {module, specifier, span, into, at}, where `into` takes the place of the span and the finding
// stands `at` bytes behind its beginning. Names of imports and of exports that lead on, and paths (`isPath`).
function placesOf({ set, outcomes }) {
  const imports = outcomes.imports.map(({ module, wanted }, place) => importPlace(module, wanted, place)).filter((place) => place !== null);
  const passed = outcomes.exports.filter(({ entry }) => entry.what === 'passed');
  const exports = passed.map(({ module, entry }, place) => exportPlace(module, entry, place));
  const paths = set.modules.flatMap((module) => module.specifiers.filter(isOwn).map((specifier, place) => pathPlace(module, specifier, place)));
  return [...imports, ...exports, ...paths];
}

// A package of another name wouldn't be told: it isn't installed.
const isOwn = ({ text, to }) => isRelative(text) && to.module !== undefined;

function pathPlace(module, specifier, place) {
  const into = JSON.stringify(`${specifier.text}-spoiled${place}`);
  return { module, specifier, span: specifier.span, into, at: 0, isPath: true };
}

// A default import that stands alone becomes one of a name that isn't there.
function importPlace(module, { span, local, name, specifier }, place) {
  if (name === null) {
    return null;
  }
  if (name === 'default' && textAt(module, span) === local) {
    const isAlone = module.outline.imports.filter((one) => one.specifier === specifier).length === 1;
    return isAlone ? { module, specifier, span, into: `{ spoiledName${place} as ${local} }`, at: 2 } : null;
  }
  return { module, specifier, span, into: `spoiledName${place}${name === local ? ` as ${local}` : ''}`, at: 0 };
}

// `export { a } from` becomes `export { spoiled as a } from`, unless `as` stands there already.
function exportPlace(module, { span, name, specifier }, place) {
  const behind = module.text.slice(module.positions.indexOf(span.end)).match(/^\s*(?:as\b)?/)[0];
  const as = behind.trim() === 'as' ? '' : ` as ${name}`;
  return { module, specifier, span, into: `spoiledExport${place}${as}`, at: 0 };
}

const textAt = (module, span) => module.positions.textOf(span);

// Where a path is spoiled nothing is said of its names.
function apart(places) {
  const spoiled = new Set(places.filter(({ isPath }) => isPath).map(({ specifier }) => specifier));
  return places.filter(({ isPath, specifier }) => isPath || !spoiled.has(specifier));
}

// The bytes of a file with its places spoiled, and where these begin then.
function spoiledBytes(module, places) {
  const bytes = fs.readFileSync(module.file);
  const pieces = [];
  const starts = [];
  let done = 0;
  let length = 0;
  for (const { span, into, at } of places.sort((a, b) => a.span.start - b.span.start)) {
    pieces.push(bytes.subarray(done, span.start), Buffer.from(into));
    starts.push(length + span.start - done + at);
    length += span.start - done + Buffer.byteLength(into);
    done = span.end;
  }
  return { bytes: Buffer.concat([...pieces, bytes.subarray(done)]), starts };
}

// Writes the files, and gives the places of the findings as `file:line:column: `.
function spoil(chosen) {
  const byModule = new Map();
  for (const place of apart(chosen)) {
    byModule.set(place.module, [...(byModule.get(place.module) || []), place]);
  }
  return [...byModule].flatMap(([module, places]) => {
    const { bytes, starts } = spoiledBytes(module, places);
    fs.writeFileSync(module.file, bytes);
    const positions = new Positions(bytes.toString('utf8'));
    return starts.map((start) => {
      const { line, column } = positions.placeOf(start);
      return `${module.shown}:${line}:${column}: `;
    });
  });
}

module.exports = { placesOf, spoil };
