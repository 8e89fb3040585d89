'use strict';
// A source with other names for some of its symbols, by its rows and tables.

// The spans of the identifiers of each symbol: where it is declared, and its references.
function spansOf({ rows, report }) {
  return report.symbols.map((symbol) => {
    const declared = symbol.redeclarations.length > 0 ? symbol.redeclarations.map(({ span }) => span) : [symbol.span];
    const used = report.references.filter((reference) => reference.symbol === symbol.id).map(({ node }) => [rows[node][3], rows[node][4]]);
    return [...declared.map((span) => (Array.isArray(span) ? span : [span.start, span.end])), ...used];
  });
}

// The source in which each symbol has the name that `nameOf` gives, where it gives one. The source is ASCII.
function renamed(source, tables, nameOf) {
  const edits = [];
  spansOf(tables).forEach((spans, symbol) => {
    const name = nameOf(tables.report.symbols[symbol]);
    if (name !== null) for (const [start, end] of spans) edits.push({ start, end, name });
  });
  edits.sort((left, right) => right.start - left.start);
  return edits.reduce((text, { start, end, name }) => text.slice(0, start) + name + text.slice(end), source);
}

module.exports = { renamed };
