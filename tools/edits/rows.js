'use strict';
// The parts of a tree's row, by number, and what is asked of rows in more than one place.

const DEPTH = 0;
const ROLE = 1;
const KIND = 2;
const START = 3;
const END = 4;
const TEXT = 5;
const MARKS = 6;

// The row above each row; the root has -1.
function parentsOf(rows) {
  const parents = new Int32Array(rows.length);
  const path = [];
  rows.forEach((row, node) => {
    parents[node] = row[DEPTH] === 0 ? -1 : path[row[DEPTH] - 1];
    path[row[DEPTH]] = node;
  });
  return parents;
}

// The row behind the last one below each row.
function endsOf(rows) {
  const ends = new Int32Array(rows.length).fill(rows.length);
  const open = [];
  rows.forEach((row, node) => {
    while (open.length > row[DEPTH]) {
      ends[open.pop()] = node;
    }
    open.push(node);
  });
  return ends;
}

module.exports = { DEPTH, ROLE, KIND, START, END, TEXT, MARKS, endsOf, parentsOf };
