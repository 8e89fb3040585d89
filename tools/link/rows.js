'use strict';
// The rows of a tree as a tree: where each node's rows end, and its children.

const { END, KIND, MARKS, ROLE, START, TEXT, endsOf } = require('../edits/rows.js');

class Rows {
  constructor(rows) {
    this.rows = rows;
    this.ends = endsOf(rows);
  }

  // The numbers of a node's children, in order.
  children(node) {
    const list = [];
    for (let at = node + 1; at < this.ends[node]; at = this.ends[at]) {
      list.push(at);
    }
    return list;
  }

  // The first child in a role, or undefined.
  child(node, role) {
    return this.children(node).find((at) => this.rows[at][ROLE] === role);
  }

  kind(node) {
    return this.rows[node][KIND];
  }

  role(node) {
    return this.rows[node][ROLE];
  }

  text(node) {
    return this.rows[node][TEXT];
  }

  span(node) {
    return { start: this.rows[node][START], end: this.rows[node][END] };
  }

  isMarked(node, mark) {
    return this.rows[node][MARKS].includes(mark);
  }

  get length() {
    return this.rows.length;
  }
}

module.exports = { Rows };
