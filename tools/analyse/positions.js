'use strict';
// Where a byte of a source stands: line, column and place in the string.
//
// Reports count UTF-8 bytes. Lines and columns are for people: both begin with 1, and a column counts characters (Unicode
// code points). A line ends where JavaScript ends it: after LF, CR, CRLF, U+2028 or U+2029.

// How far apart the noted places of a source are, in units of the string.
const STEP = 256;

const LINE_ENDS = /\r\n|[\n\r\u2028\u2029]/g;
const LINE_END = /[\n\r\u2028\u2029]/;
const OTHER_LINE_END = /[\r\u2028\u2029]/;

function isLowSurrogate(unit) {
  return unit >= 0xdc00 && unit <= 0xdfff;
}

// How many bytes a unit of the string adds. The first half of a pair has all four of them.
function bytesOfUnit(unit) {
  if (unit < 0x80) {
    return 1;
  }
  if (unit < 0x800) {
    return 2;
  }
  if (isLowSurrogate(unit)) {
    return 0;
  }
  return unit >= 0xd800 && unit <= 0xdbff ? 4 : 3;
}

// The last place in a sorted list whose value is at most the one asked for.
function lastAtMost(list, value) {
  let low = 0;
  let high = list.length;
  while (low + 1 < high) {
    const middle = (low + high) >>> 1;
    if (list[middle] <= value) {
      low = middle;
    } else {
      high = middle;
    }
  }
  return low;
}

// Where lines begin behind line feeds, which are all the line ends that most texts have.
function behindLineFeeds(text, starts) {
  for (let at = text.indexOf('\n'); at !== -1; at = text.indexOf('\n', at + 1)) {
    starts.push(at + 1);
  }
}

function behindLineEnds(text, starts) {
  for (const end of text.matchAll(LINE_ENDS)) {
    starts.push(end.index + end[0].length);
  }
}

// A byte order mark belongs to no line.
function lineStartsOf(text) {
  const starts = [text.startsWith('\ufeff') ? 1 : 0];
  const add = OTHER_LINE_END.test(text) ? behindLineEnds : behindLineFeeds;
  add(text, starts);
  return starts;
}

class Positions {
  constructor(text) {
    this.text = text;
    this.lineStarts = lineStartsOf(text);
    this.ascii = !/[^\x00-\x7f]/.test(text);
    if (!this.ascii) {
      this.note();
    }
  }

  // Notes bytes and characters before every 256th unit, so that no look-up goes over a whole line.
  note() {
    const count = Math.floor(this.text.length / STEP) + 1;
    this.bytes = new Uint32Array(count);
    this.characters = new Uint32Array(count);
    let bytes = 0;
    let characters = 0;
    for (let index = 0; index < this.text.length; index += 1) {
      if (index % STEP === 0) {
        this.bytes[index / STEP] = bytes;
        this.characters[index / STEP] = characters;
      }
      const unit = this.text.charCodeAt(index);
      bytes += bytesOfUnit(unit);
      characters += isLowSurrogate(unit) ? 0 : 1;
    }
    if (this.text.length % STEP === 0) {
      this.bytes[count - 1] = bytes;
      this.characters[count - 1] = characters;
    }
  }

  // The place in the string at which this byte begins.
  indexOf(byte) {
    if (this.ascii) {
      return Math.min(byte, this.text.length);
    }
    const noted = lastAtMost(this.bytes, byte);
    let index = noted * STEP;
    let bytes = this.bytes[noted];
    while (index < this.text.length && bytes < byte) {
      bytes += bytesOfUnit(this.text.charCodeAt(index));
      index += 1;
    }
    return index < this.text.length && isLowSurrogate(this.text.charCodeAt(index)) ? index + 1 : index;
  }

  // How many characters stand before a place in the string.
  charactersBefore(index) {
    if (this.ascii) {
      return index;
    }
    const noted = Math.floor(index / STEP);
    let characters = this.characters[noted];
    for (let at = noted * STEP; at < index; at += 1) {
      characters += isLowSurrogate(this.text.charCodeAt(at)) ? 0 : 1;
    }
    return characters;
  }

  // The line of a place in the string, from 0.
  lineOf(index) {
    return lastAtMost(this.lineStarts, index);
  }

  // Line and column, for people, of a place in the string.
  placeAt(index) {
    const line = this.lineOf(index);
    const before = this.charactersBefore(this.lineStarts[line]);
    return { line: line + 1, column: Math.max(1, this.charactersBefore(index) - before + 1) };
  }

  // Line and column of a byte.
  placeOf(byte) {
    return this.placeAt(this.indexOf(byte));
  }

  // Where the text of a line, from 0, ends: before what ends the line.
  lineEnd(line) {
    let end = line + 1 < this.lineStarts.length ? this.lineStarts[line + 1] : this.text.length;
    while (end > this.lineStarts[line] && LINE_END.test(this.text[end - 1])) {
      end -= 1;
    }
    return end;
  }

  // The text between two bytes.
  textOf(span) {
    return this.text.slice(this.indexOf(span.start), this.indexOf(span.end));
  }

  get lines() {
    return this.lineStarts.length;
  }
}

module.exports = { Positions };
