'use strict';
// The rows of pieces: those that are written, and those that are taken from the tree before.

const { placesIn } = require('../row-places');
const { copyMovedRows, numbersEnd } = require('./moving');

// Where rows begin, in the writer's bytes, and how far behind that their numbers end, as lists one behind the other.
class Begins {
  constructor() {
    this.lists = [];
    this.numbers = [];
  }

  add(begins, numbers) {
    this.lists.push(begins);
    this.numbers.push(numbers);
  }

  // Those that were written from a place on, which a comma stands before; gives how many.
  addWritten({ buffer, end }, from) {
    if (from === end) return 0;
    const list = placesIn(buffer, from, end).subarray(0, -1);
    this.add(list, Uint16Array.from(list, (begin) => numbersEnd(buffer, begin)));
    return list.length;
  }

  // All of them and the end, so many bytes further on.
  all(end, moved) {
    const all = new Uint32Array(this.lists.reduce((sum, list) => sum + list.length, 1));
    let count = 0;
    for (const list of this.lists) for (let i = 0; i < list.length; i += 1) all[count++] = list[i] + moved;
    all[count] = end + moved;
    return all;
  }

  allNumbers() {
    const all = new Uint16Array(this.numbers.reduce((sum, list) => sum + list.length, 0));
    let count = 0;
    for (const list of this.numbers) {
      all.set(list, count);
      count += list.length;
    }
    return all;
  }
}

// Has the rows of a piece written, and tells what is asked of them later.
function writePiece(writer, begins, write) {
  const from = writer.bytes.end;
  writer.isModule = false;
  write();
  const rows = from === writer.bytes.end ? 0 : begins.addWritten(writer.bytes, from + 1);
  return { rows, makesModule: writer.isModule };
}

const rowsOf = (pieces) => pieces.reduce((sum, { rows }) => sum + rows, 0);

// Writes the rows that stood before the change; those of the root and a hashbang stand before them in both trees.
function writeBefore({ bytes }, begins, known, pieces) {
  if (pieces.length === 0) return;
  const first = known.firstRow;
  const last = first + rowsOf(pieces);
  const [from, to] = [known.begins[first] - 1, known.begins[last] - 1];
  const moved = bytes.end - from;
  bytes.reserve(to - from);
  known.json.copy(bytes.buffer, bytes.end, from, to);
  bytes.end += to - from;
  begins.add(known.begins.subarray(first, last).map((begin) => begin + moved), known.numbers.subarray(first, last));
}

// Writes those behind it, whose nodes stand so many bytes further on.
function writeBehind({ bytes }, begins, known, pieces, added) {
  const rows = rowsOf(pieces);
  if (rows === 0) return;
  const written = copyMovedRows(bytes, known, known.begins.length - 1 - rows, added);
  begins.add(written.begins, written.numbers);
}

module.exports = { Begins, writeBefore, writeBehind, writePiece };
