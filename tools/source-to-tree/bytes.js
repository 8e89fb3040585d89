'use strict';
// A buffer of bytes that JSON is written to, and how numbers are written. No object is made for it. What is written often is kept as
// words of eight bytes, and the groups of a number as words of four; the last word may reach behind the end: the next write goes over
// that.

const WORD = 8;
const THOUSAND = 1000;

// An ASCII text as words, and how many bytes it has. The words are numbers in the engine's own form, since these are read and written
// eight bytes at once; bytes of ASCII are never those of what is no number.
function wordsOf(text) {
  const bytes = Buffer.alloc(WORD * Math.max(1, Math.ceil(text.length / WORD)));
  bytes.latin1Write(text);
  const words = new Float64Array(bytes.length / WORD);
  for (let i = 0; i < words.length; i++) words[i] = bytes.readDoubleLE(WORD * i);
  return { words, length: text.length };
}

const ZERO = 0x30;
const COMMA = 0x2c;

// The three digits of each number below a thousand and a comma, as a word of four bytes, and just its own digits and a comma, where the
// last bytes are of no account.
const PADDED = new Int32Array(THOUSAND);
const SHORT = new Int32Array(THOUSAND);
for (let value = 0; value < THOUSAND; value++) {
  const tens = ((value / 10) | 0) % 10;
  PADDED[value] = (ZERO + ((value / 100) | 0)) | ((ZERO + tens) << 8) | ((ZERO + (value % 10)) << 16) | (COMMA << 24);
  SHORT[value] = PADDED[value] >>> (value < 10 ? 16 : value < 100 ? 8 : 0);
}

// These write from a place of a view on, and give the place behind what they have written.

function putShort(view, at, value) {
  view.setInt32(at, SHORT[value], true);
  return at + (value < 10 ? 1 : value < 100 ? 2 : 3);
}

function putPadded(view, at, value) {
  view.setInt32(at, PADDED[value], true);
  return at + 3;
}

// Heads of rows, each in as many words, by their numbers. There is room for more than are ever made, of which the memory isn't taken.
const HEAD_ROOM = 8; // none has more than seven
const MOST_HEADS = 16384;
const HEADS = new Float64Array(HEAD_ROOM * MOST_HEADS);
const HEAD_LENGTHS = new Uint8Array(MOST_HEADS);

// Writes a head, and gives the place behind it. It writes the words of the longest, since processors guess wrongly where a short one ends.
function putHead(view, at, head) {
  const first = HEAD_ROOM * head;
  view.setFloat64(at, HEADS[first], true);
  view.setFloat64(at + WORD, HEADS[first + 1], true);
  view.setFloat64(at + 2 * WORD, HEADS[first + 2], true);
  view.setFloat64(at + 3 * WORD, HEADS[first + 3], true);
  view.setFloat64(at + 4 * WORD, HEADS[first + 4], true);
  view.setFloat64(at + 5 * WORD, HEADS[first + 5], true);
  view.setFloat64(at + 6 * WORD, HEADS[first + 6], true);
  return at + HEAD_LENGTHS[head];
}

// A number below a milliard, and a comma.
function putNumber(view, at, value) {
  if (value < THOUSAND) return putShort(view, at, value) + 1;
  const thousands = (value / THOUSAND) | 0;
  const rest = value - thousands * THOUSAND;
  if (thousands < THOUSAND) return putPadded(view, putShort(view, at, thousands), rest) + 1;
  const millions = (thousands / THOUSAND) | 0;
  return putPadded(view, putPadded(view, putShort(view, at, millions), thousands - millions * THOUSAND), rest) + 1;
}

class Bytes {
  // room is how many bytes there are at first
  constructor(room) {
    this.end = 0;
    this.take(Buffer.allocUnsafeSlow(room + WORD));
  }

  take(buffer) {
    this.buffer = buffer;
    this.view = new DataView(buffer.buffer, buffer.byteOffset, buffer.length);
    this.room = buffer.length - WORD;
  }

  // Makes room for so many bytes more.
  reserve(count) {
    if (this.end + count > this.room) this.grow(this.end + count);
  }

  grow(wanted) {
    const larger = Buffer.allocUnsafeSlow(Math.max(wanted, 2 * this.room) + WORD);
    this.buffer.copy(larger, 0, 0, this.end);
    this.take(larger);
  }

  // What is kept as words, where there is room.
  copy({ words, length }) {
    const { view, end } = this;
    view.setFloat64(end, words[0], true);
    for (let i = 1; i < words.length; i++) view.setFloat64(end + i * WORD, words[i], true);
    this.end = end + length;
  }

  // A string of ASCII, and room for it.
  ascii(text) {
    this.reserve(text.length);
    this.end += this.buffer.latin1Write(text, this.end);
  }

  // Any string, and room for it.
  string(text) {
    this.reserve(Buffer.byteLength(text));
    this.end += this.buffer.utf8Write(text, this.end);
  }
}

module.exports = { Bytes, HEADS, HEAD_LENGTHS, HEAD_ROOM, PADDED, THOUSAND, WORD, putHead, putNumber, wordsOf };
