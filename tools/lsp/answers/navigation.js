'use strict';
// Where a name is declared, and where it is used.

const HIGHLIGHT = { read: 2, write: 3 };

async function nameAt(document, { position }) {
  const names = await document.names();
  return { names, name: names.at(document.places.byteOf(position)) };
}

const locationIn = ({ uri, places }) => (span) => ({ uri, range: places.rangeOf(span) });

const isDeclaration = ({ reference }) => reference === null;

async function definition(document, params) {
  const { names, name } = await nameAt(document, params);
  const found = name === null ? [] : names.allOf(name).filter(isDeclaration);
  return found.length === 0 ? null : found.map(locationIn(document));
}

async function references(document, params) {
  const { names, name } = await nameAt(document, params);
  const wanted = params.context?.includeDeclaration === true ? () => true : (one) => !isDeclaration(one);
  return name === null ? null : names.allOf(name).filter(wanted).map(locationIn(document));
}

// A declaration writes, too.
function kindOf({ reference }) {
  return reference === null || reference.flags.includes('Write') ? HIGHLIGHT.write : HIGHLIGHT.read;
}

async function documentHighlight(document, params) {
  const { names, name } = await nameAt(document, params);
  return name === null ? null : names.allOf(name).map((one) => ({ range: document.places.rangeOf(one), kind: kindOf(one) }));
}

module.exports = { definition, documentHighlight, nameAt, references };
