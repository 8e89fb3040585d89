'use strict';
// How requests and answers stand one behind the other where a program serves: each begins with numbers of eight bytes, the least
// byte first. A request has the lengths of its words and of its input, an answer its status and the lengths of what it writes.

const NUMBER_BYTES = 8;

// What stands before the input of a request: its numbers and its words, one a line. No tree is as long as four bytes can tell.
function requestHead(words, input) {
  const text = words.map((word) => `${word}\n`).join('');
  const length = Buffer.byteLength(text);
  const head = Buffer.alloc(2 * NUMBER_BYTES + length);
  head.writeUInt32LE(length, 0);
  head.writeUInt32LE(input.length, NUMBER_BYTES);
  head.write(text, 2 * NUMBER_BYTES);
  return head;
}

const HEAD_BYTES = 3 * NUMBER_BYTES;

const HALF = 2 ** 32;

function numberAt(bytes, place) {
  const at = place * NUMBER_BYTES;
  return bytes.readUInt32LE(at) + HALF * bytes.readUInt32LE(at + NUMBER_BYTES / 2);
}

// Reads answers from pieces of bytes, and tells each once it is whole: `{ status, stdout, stderr }`, as bytes.
class AnswerReader {
  constructor(told) {
    this.told = told;
    this.pieces = [];
    this.length = 0;
    this.head = null;
  }

  push(piece) {
    this.pieces.push(piece);
    this.length += piece.length;
    while (this.length >= (this.head === null ? HEAD_BYTES : this.head.out + this.head.errs)) {
      this.take();
    }
  }

  // Takes the numbers of an answer, or what they announce.
  take() {
    const bytes = this.pieces.length === 1 ? this.pieces[0] : Buffer.concat(this.pieces);
    if (this.head === null) {
      this.head = { status: numberAt(bytes, 0), out: numberAt(bytes, 1), errs: numberAt(bytes, 2) };
      this.keep(bytes.subarray(HEAD_BYTES));
      return;
    }
    const { status, out, errs } = this.head;
    this.head = null;
    this.keep(bytes.subarray(out + errs));
    this.told({ status, stdout: bytes.subarray(0, out), stderr: bytes.subarray(out, out + errs) });
  }

  keep(rest) {
    this.pieces = [rest];
    this.length = rest.length;
  }
}

module.exports = { AnswerReader, requestHead };
