'use strict';
// Why a file gets no analysis.

// What is said of the file stands in `message`; `line` and `column` are there where one place is to blame, and mostly the
// byte at which that place begins.
class Refusal extends Error {
  constructor(message, place = {}) {
    super(message.replace(/\s*[\r\n]+\s*/g, ' '));
    this.line = place.line;
    this.column = place.column;
    this.start = place.start;
  }

  // The one line that names the file, the place and the cause.
  lineFor(file) {
    const place = this.line === undefined ? '' : `:${this.line}:${this.column}`;
    return `${printable(file)}${place}: ${this.message}`;
  }
}

// A file's name on one line: control characters are spelt out.
function printable(name) {
  return name.replace(/[\u0000-\u001f\u007f-\u009f\u2028\u2029]/g, (sign) => JSON.stringify(sign).slice(1, -1));
}

module.exports = { Refusal, printable };
