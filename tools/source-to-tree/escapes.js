'use strict';
// The bytes of a source, and how they are copied into strings of JSON, four at once where none of them needs an escape.

const WORD = 4;
const BYTES = 256;
const BACKSLASH = 0x5c;

// What stands behind the backslash of an escaped byte; 0 where the byte has no escape of two characters, or needs none.
const ESCAPES = new Uint8Array(BYTES);
for (const [byte, escape] of ['""', '\\\\', '\bb', '\ff', '\nn', '\rr', '\tt']) ESCAPES[byte.charCodeAt(0)] = escape.charCodeAt(0);

const SPACE = 0x20;
const ASCII_END = 0x80;
const PLAIN = Uint8Array.from({ length: ASCII_END }, (_, unit) => (unit >= SPACE && ESCAPES[unit] === 0 ? 1 : 0));

// Whether a unit is of ASCII and stands in JSON as it is.
const isPlain = (unit) => unit < ASCII_END && PLAIN[unit] === 1;

const EACH = 0x01010101;
const HIGHEST = 0x80808080; // the highest bit of each byte
const SPACES = 0x20202020;
const QUOTES = 0x22222222;
const BACKSLASHES = 0x5c5c5c5c;

// Has the highest bit of the first byte of a word that needs an escape, and perhaps of bytes behind that; 0 where none does.
function escapedIn(word) {
  const quotes = word ^ QUOTES;
  const backslashes = word ^ BACKSLASHES;
  return (((word - SPACES) & ~word) | ((quotes - EACH) & ~quotes) | ((backslashes - EACH) & ~backslashes)) & HIGHEST;
}

// Which of the four bytes the first bit that is set belongs to.
const firstByte = (bits) => (31 - Math.clz32(bits & -bits)) >> 3;

// What is read of a source reaches so many bytes behind its end, where spaces stand.
const BEHIND = 6 * WORD;

const MOST_BYTES = 3; // of a unit; where all have room, the engine doesn't count them beforehand

// The memory of the last text that needs it no more, kept for the next: where much of it is taken anew, the engine collects garbage.
const MOST_KEPT = 33554432;
let kept = Buffer.alloc(0);

function takeRoom(count) {
  if (kept.length < count) return Buffer.allocUnsafeSlow(count);
  const taken = kept;
  kept = Buffer.alloc(0);
  return taken;
}

// The bytes of a text.
class Utf8 {
  constructor(text) {
    const buffer = takeRoom(MOST_BYTES * text.length + BEHIND);
    const length = buffer.utf8Write(text);
    buffer.fill(SPACE, length, length + BEHIND);
    this.buffer = buffer;
    this.length = length;
    this.bytes = buffer.subarray(0, length);
    this.view = new DataView(buffer.buffer, buffer.byteOffset, buffer.length);
  }

  // They are needed no more.
  giveBack() {
    if (this.buffer.length > kept.length && this.buffer.length <= MOST_KEPT) kept = this.buffer;
    this.buffer = this.bytes = this.view = null;
  }

  // The place from here on, or behind all bytes, before which all are of ASCII and behind which one of four isn't.
  asciiEnd(from) {
    const { view, length } = this;
    let at = from;
    while (at < length && (view.getInt32(at, true) & HIGHEST) === 0) at += WORD;
    return Math.min(at, length);
  }

  // Copies all bytes to a place of another view on, where there is room for so many escapes and a word, and gives the place behind them; -1
  // where there are more escapes, or other ones than of two characters, as hardly any text has them.
  copyEscaped(target, from, escapes) {
    const { view, length } = this;
    let at = from;
    let next = 0;
    while (next < length) {
      const word = view.getInt32(next, true);
      const found = escapedIn(word);
      target.setInt32(at, word, true);
      if (found === 0) {
        next += WORD;
        at += WORD;
        continue;
      }
      const before = firstByte(found);
      const escape = ESCAPES[view.getUint8(next + before)];
      if (escape === 0 || at - from - next >= escapes) return -1;
      target.setInt16(at + before, BACKSLASH | (escape << 8), true);
      next += before + 1;
      at += before + 2;
    }
    return at - (next - length);
  }

  // Copies so many bytes, and some behind them, to where there is room for that. UTF-8 has no bytes that would be no number.
  copyShort(from, length, target, at) {
    const { view } = this;
    target.setFloat64(at, view.getFloat64(from, true), true);
    target.setFloat64(at + 2 * WORD, view.getFloat64(from + 2 * WORD, true), true);
    for (let next = 4 * WORD; next < length; next += 2 * WORD) target.setFloat64(at + next, view.getFloat64(from + next, true), true);
  }

  // Copies bytes that need no escape, and gives the place behind them; -1 where one needs it.
  copyPlain(from, to, target, start) {
    const { view } = this;
    let at = start;
    for (let next = from; next < to; next += 2 * WORD, at += 2 * WORD) {
      const first = view.getInt32(next, true);
      const second = view.getInt32(next + WORD, true);
      const count = Math.min(to - next, 2 * WORD);
      if ((escapedIn(first) & FIRST_OF[count]) !== 0 || (escapedIn(second) & SECOND_OF[count]) !== 0) return -1;
      target.setInt32(at, first, true);
      target.setInt32(at + WORD, second, true);
    }
    return start + to - from;
  }
}

// The highest bits of those of two words that are among so many bytes.
const highestOf = (count) => (count >= WORD ? HIGHEST | 0 : HIGHEST & ((1 << (8 * count)) - 1));
const FIRST_OF = Int32Array.from({ length: 2 * WORD + 1 }, (_, count) => highestOf(count));
const SECOND_OF = Int32Array.from({ length: 2 * WORD + 1 }, (_, count) => highestOf(Math.max(count - WORD, 0)));

module.exports = { Utf8, isPlain };
