'use strict';
// What the page tells of what is selected.

const { declarationId, prefixOf } = require('../ids.js');
const { counted, element, link, paragraph, placeLinks } = require('./elements.js');
const { files, freeNumberOf, freeOf, importOf, importersOf, placesOf, referenceOf, scopeOf, symbolOf } = require('./tables.js');

function scopeText(file, id) {
  const { kind, line, lastLine } = scopeOf(file, id);
  return `${id} (${kind}, lines ${line} to ${lastLine})`;
}

const scopeLink = (file, id) => link(`${prefixOf(file)}scope-${id}`, scopeText(file, id));

// Where an import leads, and which other files import the symbol.
function describeTies(file, symbol) {
  const taken = importOf(file, symbol);
  const importers = importersOf(declarationId(file, symbol, 0));
  const lines = [];
  if (taken !== undefined) {
    const what = taken.name === null ? 'all' : `\`${taken.name}\``;
    const place = taken.target === null ? taken.end ?? "which isn't known here" : link(taken.target, `its export in ${taken.end}`);
    lines.push(paragraph(`Imports ${what} of ${taken.from}: `, place));
  }
  if (importers.length > 0) {
    const links = importers.flatMap((one) => [link(declarationId(one.file, one.symbol, 0), files[one.file].name), ' ']);
    lines.push(paragraph('Imported by ', ...links));
  }
  return lines;
}

function describeSymbol(file, id) {
  const symbol = symbolOf(file, id);
  const places = placesOf({ file, type: 'symbol', number: id });
  const uses = places.filter((place) => !place.declares);
  return [
    paragraph(element('span', symbol.name, { class: 'name' }), ` symbol ${id} `, element('button', 'Rename', { type: 'button', value: 'rename' })),
    paragraph('Declared at ', ...placeLinks(places.filter((place) => place.declares))),
    ...describeTies(file, id),
    paragraph('Scope ', scopeLink(file, symbol.scope)),
    paragraph(`Flags: ${symbol.flags || 'none'}${symbol.pure ? ', without side effects' : ''}`),
    paragraph(uses.length === 0 ? 'No uses' : `${counted(uses.length, 'use')}: `, ...placeLinks(uses)),
  ];
}

function describeFree(file, number) {
  const places = placesOf({ file, type: 'free', number });
  return [
    paragraph(element('span', freeOf(file, number).name, { class: 'name' }), ' is free: no scope declares it'),
    paragraph('Used at ', ...placeLinks(places)),
  ];
}

function describeReference(file, id) {
  const { symbol, line, column, flags, scope } = referenceOf(file, id);
  const here = paragraph(`Reference ${id} at ${line}:${column}, ${flags || 'no flags'}, in scope `, scopeLink(file, scope));
  const name = symbol === null ? describeFree(file, freeNumberOf({ file, type: 'ref', number: id })) : describeSymbol(file, symbol);
  return [...name, here];
}

function describeScope(file, id) {
  const scope = scopeOf(file, id);
  const names = files[file].symbols.flatMap((entry, symbol) => (entry[2] === id ? [link(declarationId(file, symbol, 0), entry[0]), ' '] : []));
  return [
    paragraph(element('span', scope.kind, { class: 'name' }), ` scope ${id}, lines ${scope.line} to ${scope.lastLine}`),
    paragraph(`Flags: ${scope.flags || 'none'}`),
    paragraph(...(scope.parent === null ? ['No scope around it'] : ['Inside scope ', scopeLink(file, scope.parent)])),
    paragraph(names.length === 0 ? 'No symbols' : 'Symbols: ', ...names),
  ];
}

const DESCRIBE = { symbol: describeSymbol, ref: describeReference, free: describeFree, scope: describeScope };

// The paragraphs on a target.
const described = ({ type, file, number }) => DESCRIBE[type](file, number);

// The same in a line.
function hintText({ file, type, number }) {
  const { name, flags, symbol } = type === 'ref' ? referenceOf(file, number) : { symbol: number };
  if (symbol === null) {
    return `${name}: free, ${flags}`;
  }
  const { places, scope, uses, ...told } = symbolOf(file, symbol);
  return `${told.name}: declared at ${places[0].join(':')} in scope ${scopeText(file, scope)}; ${told.flags || 'no flags'}; ${counted(uses.length, 'use')}`;
}

module.exports = { described, hintText };
