'use strict';
// Whether tables tie the references of a program to what they mean (crates/language_ties/specs/Agreement.antt).

// The symbols of binding identifiers, by their spans.
function symbolsAt({ rows, report }) {
  const identifiers = new Map();
  rows.forEach(([, , kind, start, end], id) => {
    if (kind === 'BindingIdentifier') identifiers.set(`${start}-${end}`, id);
  });
  const found = new Map();
  for (const symbol of report.symbols) {
    const spans = symbol.redeclarations.length > 0 ? symbol.redeclarations.map(({ span }) => span) : [symbol.span];
    for (const span of spans) {
      const [start, end] = Array.isArray(span) ? span : [span.start, span.end];
      found.set(identifiers.get(`${start}-${end}`), symbol.id);
    }
  }
  return found;
}

// A free reference is one that no declaration binds; a tied one has the symbol of each identifier that does.
function agrees(symbols, tied, meaning) {
  if (meaning === null) return tied === null;
  if (meaning.identifiers === null) return false;
  if (meaning.identifiers.length === 0) return tied === null;
  return tied !== null && meaning.identifiers.every((id) => symbols.get(id) === tied);
}

// The references on which tables and language differ.
function differing(tables, { references }) {
  const symbols = symbolsAt(tables);
  const tied = new Map(tables.report.references.map(({ node, symbol }) => [node, symbol]));
  return references.filter(({ node, meaning }) => !agrees(symbols, tied.get(node), meaning));
}

module.exports = { differing };
