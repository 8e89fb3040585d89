'use strict';
// Why a symbol doesn't get a name.

const { STATUS } = require('../bolgwyr/faults.js');
const { excerpt } = require('../analyse/excerpt.js');
const { printable } = require('../analyse/refusal.js');

// `span`, in bytes of the source, is where what is in the way stands; null where it has no place.
class RenameRefusal extends Error {
  constructor(message, span = null) {
    super(message);
    this.name = 'RenameRefusal';
    this.status = STATUS.FOUND;
    this.span = span;
    this.line = null;
    this.column = null;
    this.excerpt = [];
  }

  // With line, column and the line of source; an inner refusal keeps those that it has.
  placedIn(positions) {
    if (this.span !== null && this.line === null) {
      Object.assign(this, positions.placeOf(this.span.start));
      this.excerpt = excerpt(positions, this.span, null);
    }
    return this;
  }

  // What a person reads.
  linesFor(file) {
    const place = this.line === null ? '' : `:${this.line}:${this.column}`;
    return [`${printable(file)}${place}: ${this.message}`, ...this.excerpt];
  }
}

module.exports = { RenameRefusal };
