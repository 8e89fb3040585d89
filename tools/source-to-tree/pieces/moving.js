'use strict';
// Rows of a tree whose source has changed before them: they are the same but for their places. They are copied many at once, and their
// numbers are changed where they stand; a row whose numbers get more digits or fewer is written anew.

const { putNumber } = require('../bytes');

const QUOTE = 0x22;
const COMMA = 0x2c;
const ZERO = 0x30;
const TEN = 10;

const QUOTES_BEFORE = 4; // round role and kind, which stand before the places and have no others in them
const MORE_DIGITS = 16; // by which the two places of a row may grow
const AT_ONCE = 64; // rows that are copied at once; behind one that is written anew the others are copied once more

// The place behind the comma that follows role and kind of the row that begins here.
function placesOfRow(json, from) {
  let at = from;
  for (let quotes = 0; quotes < QUOTES_BEFORE; at += 1) if (json[at] === QUOTE) quotes += 1;
  return at + 1;
}

// How far behind the begin of a row the comma stands that follows both its places.
function numbersEnd(json, begin) {
  const first = json.indexOf(COMMA, placesOfRow(json, begin));
  return json.indexOf(COMMA, first + 1) - begin;
}

// Adds to the number whose digits end before a place, and gives the place of the comma before it, or -1 where it would have more
// digits or fewer.
function addBefore(buffer, end, added) {
  let rest = added;
  let at = end - 1;
  for (; buffer[at] !== COMMA; at -= 1) {
    if (rest !== 0) {
      const sum = buffer[at] - ZERO + rest;
      rest = Math.floor(sum / TEN);
      buffer[at] = ZERO + sum - TEN * rest;
    }
  }
  return rest !== 0 || (buffer[at + 1] === ZERO && at + 2 < end) ? -1 : at;
}

// Adds to both numbers of a row, which end at a place, and tells whether that left its length.
function movesInPlace(buffer, end, added) {
  const between = addBefore(buffer, end, added);
  return between !== -1 && addBefore(buffer, between, added) !== -1;
}

// What moves: rows from one on, whose nodes stand so many bytes further on. `begins` has the places of all rows and of their end,
// `numbers` how far behind its begin the numbers of each row end.
class MovedRows {
  constructor(bytes, { json, begins, numbers }, first, added) {
    Object.assign(this, { bytes, json, begins, numbers, first, added });
    this.count = begins.length - 1;
    this.written = { begins: new Uint32Array(this.count - first), numbers: numbers.slice(first) };
  }

  // The last row has no comma behind it.
  endOf(row) {
    return this.begins[row + 1] - (row + 1 < this.count ? 1 : 0);
  }

  // Copies some rows, each with the comma before it, and gives the first that is still to be written.
  copy(from, behind) {
    const { bytes, begins, numbers, first, added, written } = this;
    const { buffer } = bytes;
    const moved = bytes.end - (begins[from] - 1);
    this.json.copy(buffer, bytes.end, begins[from] - 1, this.endOf(behind - 1));
    for (let row = from; row < behind; row += 1) {
      const begin = begins[row] + moved;
      if (!movesInPlace(buffer, begin + numbers[row], added)) {
        bytes.end = begin - 1;
        this.writeAnew(row);
        return row + 1;
      }
      written.begins[row - first] = begin;
    }
    bytes.end = this.endOf(behind - 1) + moved;
    return behind;
  }

  writeAnew(row) {
    const { bytes, json, begins, first, added, written } = this;
    const { buffer, view } = bytes;
    const start = placesOfRow(json, begins[row]);
    const behind = begins[row] + this.numbers[row];
    const [from, to] = json.toString('latin1', start, behind).split(',').map((digits) => Number(digits) + added);
    buffer[bytes.end] = COMMA;
    const begin = bytes.end + 1;
    json.copy(buffer, begin, begins[row], start);
    const end = putNumber(view, putNumber(view, begin + start - begins[row], from), to) - 1;
    bytes.end = end + json.copy(buffer, end, behind, this.endOf(row));
    written.begins[row - first] = begin;
    written.numbers[row - first] = end - begin;
  }
}

// Writes the rows from one on whose nodes stand so many bytes further on, each with the comma before it, and gives where each begins, and
// how far behind that its numbers end.
function copyMovedRows(bytes, known, first, added) {
  const rows = new MovedRows(bytes, known, first, added);
  bytes.reserve(known.begins[rows.count] - known.begins[first] + 1 + MORE_DIGITS * (rows.count - first));
  for (let row = first; row < rows.count;) {
    row = rows.copy(row, Math.min(row + AT_ONCE, rows.count));
  }
  return rows.written;
}

module.exports = { copyMovedRows, numbersEnd };
