'use strict';
// The text of a source file.

const buffer = require('buffer');
const fs = require('fs');
const { Positions } = require('./positions.js');
const { Refusal } = require('./refusal.js');

// The report program takes no longer tree, and a tree holds its source.
const MOST_BYTES = 67_108_864;

const CAUSES = {
  ENOENT: 'no such file',
  ENOTDIR: 'no such file',
  EACCES: 'may not be read',
  EISDIR: 'is a folder',
  ELOOP: 'its links make a ring',
  ENAMETOOLONG: 'its name is too long',
};

// With commas between thousands.
function counted(number) {
  return String(number).replace(/\B(?=(?:\d{3})+$)/g, ',');
}

// Refuses what is longer than any tree that is taken.
function checkSize(size, what) {
  if (size > MOST_BYTES) {
    throw new Refusal(`too large: ${what} has ${counted(size)} bytes, and at most ${counted(MOST_BYTES)} are taken`);
  }
}

let input = null;

// Standard input, which can be read once.
function inputBytes() {
  input ??= fs.readFileSync(0);
  return input;
}

// The bytes of a file, whose size may be known; `-` is standard input.
function bytesOf(file, size) {
  try {
    if (file === '-') {
      return inputBytes();
    }
    checkSize(size ?? fs.statSync(file).size, 'the file');
    return fs.readFileSync(file);
  } catch (error) {
    if (error instanceof Refusal) {
      throw error;
    }
    throw new Refusal(CAUSES[error.code] || `can't be read: ${error.message}`);
  }
}

// The first byte that belongs to no character. Before it all is text.
function firstFault(bytes, text) {
  const again = Buffer.from(text, 'utf8');
  let place = 0;
  while (place < bytes.length && bytes[place] === again[place]) {
    place += 1;
  }
  return place;
}

// Whether bytes are UTF-8. The first versions of Node 18 have no call for it.
const isText = buffer.isUtf8 ?? ((bytes) => Buffer.from(bytes.toString('utf8'), 'utf8').equals(bytes));

// The text of bytes, which have to be UTF-8. A byte order mark stays.
function decode(bytes) {
  const text = bytes.toString('utf8');
  if (!isText(bytes)) {
    const start = firstFault(bytes, text);
    const before = bytes.toString('utf8', 0, start);
    throw new Refusal(`not UTF-8 at byte ${start}`, { ...new Positions(before).placeAt(before.length), start });
  }
  return text;
}

const readText = (file) => decode(bytesOf(file));

module.exports = { bytesOf, checkSize, decode, readText };
