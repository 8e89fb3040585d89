'use strict';
// One program that answers many requests, one behind the other: a process for each of a hundred thousand trees costs more than
// what it says.

const fs = require('fs');
const os = require('os');
const path = require('path');
const { execFileSync, spawn } = require('child_process');
const { programPath } = require('../programs/index.js');

const LENGTH_BYTES = 8;

function lengths(...numbers) {
  const bytes = Buffer.alloc(LENGTH_BYTES * numbers.length);
  numbers.forEach((number, at) => bytes.writeBigUInt64LE(BigInt(number), at * LENGTH_BYTES));
  return bytes;
}

function writeAll(descriptor, bytes) {
  for (let at = 0; at < bytes.length;) at += fs.writeSync(descriptor, bytes, at);
}

function readAll(descriptor, length) {
  const bytes = Buffer.alloc(length);
  for (let at = 0; at < length;) {
    const count = fs.readSync(descriptor, bytes, at, length - at);
    if (count === 0) throw new Error('the program that serves has ended');
    at += count;
  }
  return bytes;
}

// Talks with `tools_main serve` through two named pipes, so that a request waits for its answer without a turn of the loop.
class Served {
  constructor() {
    this.folder = fs.mkdtempSync(path.join(os.tmpdir(), 'served-'));
    const [into, from] = ['in', 'out'].map((name) => path.join(this.folder, name));
    execFileSync('mkfifo', [into, from]);
    this.child = spawn('sh', ['-c', 'exec "$0" serve <"$1" >"$2"', programPath('tools_main'), into, from], { stdio: 'ignore' });
    this.input = fs.openSync(into, 'w');
    this.output = fs.openSync(from, 'r');
  }

  ask(words, input) {
    const text = Buffer.from(words.map((word) => `${word}\n`).join(''));
    writeAll(this.input, Buffer.concat([lengths(text.length, input.length), text]));
    writeAll(this.input, input);
    const head = readAll(this.output, 3 * LENGTH_BYTES);
    const [status, out, errors] = [0, 1, 2].map((place) => Number(head.readBigUInt64LE(place * LENGTH_BYTES)));
    return { status, stdout: readAll(this.output, out), stderr: readAll(this.output, errors) };
  }

  end() {
    fs.closeSync(this.input);
    fs.closeSync(this.output);
    fs.rmSync(this.folder, { recursive: true });
  }
}

module.exports = { Served };
