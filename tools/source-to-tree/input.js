'use strict';
// Reads a source file.

const fs = require('fs');
const { Refusal } = require('./refusal');

const READING = { ENOENT: 'no such file', EISDIR: 'is a folder', EACCES: "can't be read: permission denied" };

// The text of a file, its byte order mark kept; refused where the file isn't there or isn't UTF-8.
function readText(file) {
  let bytes;
  try {
    bytes = fs.readFileSync(file);
  } catch (error) {
    throw new Refusal(READING[error.code] || error.message);
  }
  try {
    return new TextDecoder('utf-8', { fatal: true, ignoreBOM: true }).decode(bytes);
  } catch {
    throw new Refusal('not UTF-8');
  }
}

module.exports = { readText };
