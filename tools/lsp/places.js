'use strict';
// Between bytes of a text, which the tables count, and positions of the protocol.

const { Positions } = require('../analyse/positions.js');
const { splitLines } = require('./lines.js');

// The last place in a sorted list whose value is at most the one asked for.
function lastAtMost(list, value) {
  let low = 0;
  let high = list.length;
  while (low + 1 < high) {
    const middle = (low + high) >>> 1;
    if (list[middle] <= value) {
      low = middle;
    } else {
      high = middle;
    }
  }
  return low;
}

// Where lines begin, by what measures them.
function startsOf(lines, measure) {
  let at = 0;
  return lines.map((line) => {
    const start = at;
    at += measure(line);
    return start;
  });
}

const ENDING = /[\r\n]+$/;

class Places {
  constructor(text, encoding) {
    this.text = text;
    this.encoding = encoding;
    this.known = {};
  }

  kept(name, make) {
    this.known[name] ??= make();
    return this.known[name];
  }

  get positions() {
    return this.kept('positions', () => new Positions(this.text));
  }

  get lines() {
    return this.kept('lines', () => splitLines(this.text));
  }

  // The first unit of the string in each line, and the first byte.
  get unitStarts() {
    return this.kept('unitStarts', () => startsOf(this.lines, (line) => line.length));
  }

  get byteStarts() {
    return this.positions.ascii ? this.unitStarts : this.kept('byteStarts', () => startsOf(this.lines, (line) => Buffer.byteLength(line)));
  }

  // Makes what places are looked up in.
  prepare() {
    return [this.unitStarts, this.byteStarts];
  }

  positionOf(byte) {
    const line = lastAtMost(this.byteStarts, byte);
    const character = this.encoding === 'utf-8' ? byte - this.byteStarts[line] : this.positions.indexOf(byte) - this.unitStarts[line];
    return { line, character };
  }

  rangeOf({ start, end }) {
    return { start: this.positionOf(start), end: this.positionOf(end) };
  }

  // The byte of a position; what is beyond the end of a line or of the text is that end.
  byteOf({ line, character }) {
    if (line >= this.lines.length) {
      return Buffer.byteLength(this.text);
    }
    const text = this.lines[line].replace(ENDING, '');
    const bytes = Buffer.from(this.encoding === 'utf-8' ? text : text.slice(0, character));
    return this.byteStarts[line] + (this.encoding === 'utf-8' ? Math.min(character, bytes.length) : bytes.length);
  }

  textOf(span) {
    return this.positions.textOf(span);
  }

  // The byte of a line and a column as they are told to people.
  byteOfColumn(line, column) {
    const { lineStarts } = this.positions;
    const start = lineStarts[Math.min(line, lineStarts.length) - 1];
    const before = [...this.text.slice(start, start + 2 * column)].slice(0, column - 1).join('');
    return Buffer.byteLength(this.text.slice(0, start) + before);
  }

  // The range of a place that is only known by where it begins: the word there, or one character.
  wordAt(byte) {
    const index = this.positions.indexOf(byte);
    const found = /[\p{ID_Continue}$]+|[^\r\n]?/uy;
    found.lastIndex = index;
    const [word] = found.exec(this.text);
    return this.rangeOf({ start: byte, end: byte + Buffer.byteLength(word) });
  }
}

module.exports = { Places, lastAtMost };
