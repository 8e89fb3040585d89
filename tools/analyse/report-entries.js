'use strict';
// Single symbols and references of a report, found in its bytes: most of a report is never asked for.

const { RunFault } = require('../bolgwyr/faults.js');
const { parseEntry } = require('./report-parser.js');

const LINE_END = '\n';
const ZERO = 0x30;
const NINE = 0x39;

// What lines tell of the symbol before them.
const OF_SYMBOL = ['redecl ', 'uses ', 'pure '];

// The number that begins at this byte.
function numberAt(bytes, from) {
  let value = 0;
  for (let at = from; bytes[at] >= ZERO && bytes[at] <= NINE; at += 1) {
    value = 10 * value + bytes[at] - ZERO;
  }
  return value;
}

// The lines that begin with a word, which number what they tell of from 0 on. A place is that of the line end before a line: a report has
// a line of another word first. Most lines are asked for in order, and found a few lines behind the one before.
class Numbered {
  constructor(bytes, word) {
    this.bytes = bytes;
    this.word = word;
    this.begin = `${LINE_END}${word} `;
    this.first = bytes.indexOf(this.begin);
    this.last = bytes.lastIndexOf(this.begin);
    this.found = this.first; // the line that was asked for last
  }

  numberAt(place) {
    return numberAt(this.bytes, place + this.begin.length);
  }

  // Two lines: one up to that of a number, and that one or one behind it. Steps from the line that was found last grow.
  around(number) {
    let low = this.numberAt(this.found) <= number ? this.found : this.first;
    for (let step = 1; low < this.last && this.numberAt(low) < number; step *= 2) {
      const place = this.bytes.indexOf(this.begin, Math.min(low + step, this.last));
      if (this.numberAt(place) > number) {
        return [low, place];
      }
      low = place;
    }
    return [low, low];
  }

  // Where the line of a number begins.
  startOf(number) {
    let [low, high] = this.around(number);
    while (low < high) {
      const middle = (low + high + 1) >>> 1;
      const place = this.bytes.indexOf(this.begin, middle);
      if (this.numberAt(place) <= number) {
        low = place;
      } else {
        high = this.bytes.lastIndexOf(this.begin, middle - 1);
      }
    }
    if (low === -1 || this.numberAt(low) !== number) {
      throw new RunFault(`the report has no ${this.word} ${number}`);
    }
    this.found = low;
    return low + LINE_END.length;
  }
}

class ReportEntries {
  constructor(bytes) {
    this.bytes = bytes;
    this.symbols = new Numbered(bytes, 'symbol');
    this.references = new Numbered(bytes, 'ref');
  }

  // The place behind the line that begins here.
  behindLine(start) {
    return this.bytes.indexOf(LINE_END, start) + LINE_END.length;
  }

  isOfSymbol(start) {
    const word = this.bytes.toString('latin1', start, start + OF_SYMBOL[0].length);
    return OF_SYMBOL.some((begin) => word.startsWith(begin));
  }

  symbol(id) {
    const start = this.symbols.startOf(id);
    let end = this.behindLine(start);
    while (this.isOfSymbol(end)) {
      end = this.behindLine(end);
    }
    return parseEntry(this.bytes.toString('utf8', start, end), 'symbols', id);
  }

  reference(id) {
    const start = this.references.startOf(id);
    return parseEntry(this.bytes.toString('utf8', start, this.behindLine(start)), 'references', id);
  }

  // How many symbols there are.
  get symbolCount() {
    return this.symbols.last === -1 ? 0 : this.symbols.numberAt(this.symbols.last) + 1;
  }

  // The numbers of the symbols that are declared more than once, in order.
  redeclared() {
    const begin = `${LINE_END}redecl `;
    const numbers = new Set();
    for (let place = this.bytes.indexOf(begin); place !== -1; place = this.bytes.indexOf(begin, place + begin.length)) {
      numbers.add(numberAt(this.bytes, place + begin.length));
    }
    return [...numbers];
  }
}

module.exports = { ReportEntries };
