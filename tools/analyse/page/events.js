'use strict';
// What begins where in the source: names, scopes inside a line, and marks.

const { declarationId, prefixOf } = require('./ids.js');

// At one place ends of marks come first, then their starts, then scopes, then names.
const RANK = { unmark: 0, mark: 1, scope: 2, name: 3 };

function symbolEvents({ number, symbols }) {
  return symbols.flatMap((symbol) => symbol.declarations.map((span, place) => ({
    type: 'name',
    span,
    id: declarationId(number, symbol.id, place),
    look: symbol.isUnused ? 'd u' : 'd',
    target: declarationId(number, symbol.id, 0),
  })));
}

function referenceEvents({ prefix, free, references }) {
  const freeOf = new Map(free.flatMap((entry, place) => entry.references.map((id) => [id, place])));
  return references.map((entry) => {
    const target = entry.symbol === null ? `free-${freeOf.get(entry.id)}` : `symbol-${entry.symbol}`;
    const write = entry.flags.includes('Write') ? ' w' : '';
    return { type: 'name', span: entry.span, id: `${prefix}ref-${entry.id}`, look: (entry.symbol === null ? 'f' : 'r') + write, target: prefix + target };
  });
}

// The texts by which a module names others of the page.
function specifierEvents({ prefix, specifiers }) {
  return specifiers.map(({ span, file }, place) => ({ type: 'name', span, id: `${prefix}module-${place}`, look: 'm', target: `file-${file}` }));
}

function markEvents(span, mark, id) {
  const end = Math.max(span.end, span.start);
  return [
    { type: 'mark', span, mark, id },
    { type: 'unmark', span: { start: end, end }, mark },
  ];
}

// How findings are marked; others of them have a wavy line.
const MARKS = { 'no-unused': 'unused', 'unused-label': 'label' };

function findingEvents({ prefix, findings }) {
  return findings.flatMap(({ rule, places }, number) => places.flatMap(({ span }, place) => (
    span === null ? [] : markEvents(span, MARKS[rule] ?? 'finding', `${prefix}finding-${number}-${place}`))));
}

function markedSpans(model) {
  const { comments, defaultExport, prefix } = model;
  return [
    ...comments.flatMap((span) => markEvents(span, 'comment', null)),
    ...(defaultExport === null ? [] : markEvents({ ...defaultExport, end: defaultExport.start }, 'comment', `${prefix}default`)),
    ...findingEvents(model),
  ];
}

// All events in the order of the source.
function eventsOf(model, inlineScopes) {
  const prefix = prefixOf(model.number);
  const scopes = inlineScopes.map((scope) => ({ type: 'scope', span: scope.span, id: `${prefix}scope-${scope.id}` }));
  const events = [...symbolEvents(model), ...referenceEvents(model), ...specifierEvents(model), ...scopes, ...markedSpans(model)];
  return events.sort((left, right) =>
    left.span.start - right.span.start || RANK[left.type] - RANK[right.type] || right.span.end - left.span.end);
}

module.exports = { eventsOf };
