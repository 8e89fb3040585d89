'use strict';
// Reads one line of a report from left to right.

const QUOTED = /"(?:[^"\\]|\\.)*"/y;
const ZERO = 0x30;
const TEN = 10;

class Cursor {
  constructor(line) {
    this.line = line;
    this.place = 0;
  }

  fail(wanted) {
    throw new SyntaxError(`${wanted} wanted at column ${this.place + 1}`);
  }

  match(pattern, wanted) {
    pattern.lastIndex = this.place;
    const found = pattern.exec(this.line);
    if (found === null) {
      this.fail(wanted);
    }
    this.place = pattern.lastIndex;
    return found[0];
  }

  ended() {
    return this.place === this.line.length;
  }

  end() {
    if (!this.ended()) {
      this.fail('the end');
    }
  }

  // Whether this text stands here.
  sees(text) {
    return this.line.startsWith(text, this.place);
  }

  // Passes this text if it stands here.
  takes(text) {
    const there = this.sees(text);
    if (there) {
      this.place += text.length;
    }
    return there;
  }

  expect(text) {
    if (!this.takes(text)) {
      this.fail(JSON.stringify(text));
    }
  }

  word() {
    const { line, place } = this;
    const space = line.indexOf(' ', place);
    const end = space === -1 ? line.length : space;
    if (end === place) {
      this.fail('a word');
    }
    this.place = end;
    return line.slice(place, end);
  }

  // The digit here, above nine or below zero where none stands.
  digit() {
    return this.line.charCodeAt(this.place) - ZERO;
  }

  // Zero, or digits that don't begin with it.
  number() {
    let value = this.digit();
    if (!(value >= 0 && value < TEN)) {
      this.fail('a number');
    }
    this.place += 1;
    if (value > 0) {
      for (let digit = this.digit(); digit >= 0 && digit < TEN; digit = this.digit()) {
        value = TEN * value + digit;
        this.place += 1;
      }
    }
    return value;
  }

  // A number, or null where a dash stands.
  numberOrDash() {
    return this.takes('-') ? null : this.number();
  }

  // A number behind a label.
  labelled(label) {
    this.expect(label);
    return this.number();
  }

  // Most texts have no escapes, and end with the next quote.
  quoted() {
    const { line, place } = this;
    const end = line.indexOf('"', place + 1);
    const text = line.slice(place + 1, end);
    if (line[place] !== '"' || end === -1 || text.includes('\\')) {
      return JSON.parse(this.match(QUOTED, 'a quoted text'));
    }
    this.place = end + 1;
    return text;
  }

  quotedOrDash() {
    return this.takes('-') ? null : this.quoted();
  }

  span() {
    const start = this.number();
    this.expect('-');
    return { start, end: this.number() };
  }

  // Names joined by `+`, or a dash for none.
  flags() {
    const word = this.word();
    return word === '-' ? [] : word.split('+');
  }

  // Numbers up to the end, each behind a space.
  numbers() {
    const numbers = [];
    while (!this.ended()) {
      numbers.push(this.labelled(' '));
    }
    return numbers;
  }

  oneOf(first, second) {
    const word = this.word();
    if (word !== first && word !== second) {
      this.fail(`${first} or ${second}`);
    }
    return word === first;
  }
}

module.exports = { Cursor };
