'use strict';
// The names of a text that declare a symbol or refer to one, by their places.

const { declarationsOf } = require('../rename/analysed.js');
const { lastAtMost } = require('./places.js');

function declared(symbol) {
  return declarationsOf(symbol).map(({ start, end }) => ({ start, end, name: symbol.name, symbol, reference: null }));
}

function referring(analysed, reference) {
  const symbol = reference.symbol === null ? null : analysed.report.symbols[reference.symbol];
  const { start, end } = analysed.spanOf(reference.node);
  return { start, end, name: reference.name, symbol, reference };
}

// Each name is `{ start, end, name, symbol, reference }`: `symbol` is null where nothing declares it, `reference` where it declares.
class Names {
  constructor(analysed) {
    this.report = analysed.report;
    this.refers = (id) => referring(analysed, this.report.references[id]);
    const { symbols, references } = this.report;
    this.list = [...symbols.flatMap(declared), ...references.map((_, id) => this.refers(id))].sort((left, right) => left.start - right.start);
    this.starts = this.list.map(({ start }) => start);
  }

  // The name that holds a byte or ends before it, or null.
  at(byte) {
    const found = this.list[lastAtMost(this.starts, byte)];
    return found !== undefined && found.start <= byte && byte <= found.end ? found : null;
  }

  // All names that are one with this one: those of its symbol, else the free ones that are spelled like it. Declarations come first.
  allOf({ symbol, name }) {
    if (symbol !== null) {
      return [...declared(symbol), ...symbol.references.map(this.refers)];
    }
    const free = this.once('free', () => new Map(this.report.free.map((entry) => [entry.name, entry.references])));
    return (free.get(name) ?? []).map(this.refers);
  }

  once(name, make) {
    this.known ??= {};
    this.known[name] ??= make();
    return this.known[name];
  }
}

module.exports = { Names };
