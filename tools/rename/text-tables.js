'use strict';
// A source text with its tree and tables, and what of them is asked for more than once. It runs nothing, so a page can ask it, too.

const { END, KIND, ROLE, START, endsOf, parentsOf } = require('../edits/rows.js');

// The spans of all declarations of a symbol, the first one first.
function declarationsOf(symbol) {
  const again = symbol.redeclarations.map(({ span }) => span).filter(({ start }) => start !== symbol.span.start);
  return [symbol.span, ...again];
}

// The symbol that is declared at each byte.
function symbolsByStart(report) {
  const found = new Map();
  for (const symbol of report.symbols) {
    for (const { start } of declarationsOf(symbol)) {
      found.set(start, symbol);
    }
  }
  return found;
}

class Analysed {
  constructor({ source, options, json, tree, report, positions }) {
    Object.assign(this, { source, options, json, tree, report, positions });
    this.rows = tree.rows;
    this.kept = new Map();
  }

  once(name, make) {
    if (!this.kept.has(name)) {
      this.kept.set(name, make());
    }
    return this.kept.get(name);
  }

  get parents() {
    return this.once('parents', () => parentsOf(this.rows));
  }

  get ends() {
    return this.once('ends', () => endsOf(this.rows));
  }

  // The row of the binding identifier at each byte.
  get bindings() {
    return this.once('bindings', () => {
      const found = new Map();
      this.rows.forEach((row, node) => {
        if (row[KIND] === 'BindingIdentifier') {
          found.set(row[START], node);
        }
      });
      return found;
    });
  }

  get declared() {
    return this.once('declared', () => symbolsByStart(this.report));
  }

  get referenceAt() {
    return this.once('references', () => new Map(this.report.references.map((reference) => [reference.node, reference])));
  }

  // The symbol that a row declares or means, or null.
  symbolOf(node) {
    const reference = this.referenceAt.get(node);
    if (reference !== undefined) {
      return reference.symbol === null ? null : this.report.symbols[reference.symbol];
    }
    const symbol = this.declared.get(this.rows[node][START]);
    return symbol === undefined ? null : symbol;
  }

  // The rows that declare the symbol or mean it, in order.
  occurrencesOf(symbol) {
    const declarations = declarationsOf(symbol).map(({ start }) => this.bindings.get(start)).filter((node) => node !== undefined);
    const uses = symbol.references.map((reference) => this.report.references[reference].node);
    return [...declarations, ...uses].sort((a, b) => a - b);
  }

  // The row of the name that a declaration binds, or -1.
  nameOf(declaration) {
    for (let node = declaration + 1; node < this.ends[declaration]; node += 1) {
      if (this.parents[node] === declaration && this.rows[node][ROLE] === 'id') {
        return node;
      }
    }
    return -1;
  }

  spanOf(node) {
    const row = this.rows[node];
    return { start: row[START], end: row[END] };
  }

  placeOf(node) {
    const { line, column } = this.positions.placeOf(this.rows[node][START]);
    return `${line}:${column}`;
  }

  placeOfSpan({ start }) {
    const { line, column } = this.positions.placeOf(start);
    return `${line}:${column}`;
  }
}

module.exports = { Analysed, declarationsOf };
