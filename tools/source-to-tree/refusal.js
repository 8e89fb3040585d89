'use strict';
// Why a file has no tree: the message of the parser and, where there is one, the place in the text that it saw.

class Refusal extends Error {
  // offset counts UTF-16 units of the text given to the parser, null where there is no place
  constructor(message, offset = null) {
    super(message);
    this.name = 'Refusal';
    this.offset = offset;
    this.line = null;
    this.column = null;
    this.isForAge = false; // true where a newer parser may read the text
  }

  // Finds line and column, both from 1, of the offset in the text.
  placeIn(text) {
    if (this.offset === null || this.line !== null) return this;
    const before = text.slice(0, this.offset).split(/\r\n|[\n\r\u2028\u2029]/);
    this.line = before.length;
    this.column = before[before.length - 1].length + 1;
    return this;
  }

  // The one line that says which file is refused and why.
  lineFor(filename) {
    const place = this.line === null ? '' : `:${this.line}:${this.column}`;
    return `${filename}${place}: ${this.message.replace(/\s*[\r\n]+\s*/g, ' ')}`;
  }
}

module.exports = { Refusal };
