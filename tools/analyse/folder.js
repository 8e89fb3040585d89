'use strict';
// The source files below a folder.

const fs = require('fs');
const path = require('path');
const { tell } = require('./output.js');
const { printable } = require('./refusal.js');

const ENDINGS = new Set(['.js', '.mjs', '.cjs', '.jsx', '.ts', '.mts', '.cts', '.tsx']);

function sizeOf(file) {
  try {
    const found = fs.statSync(file);
    return found.isFile() ? found.size : null;
  } catch {
    return null;
  }
}

// What a folder holds. One that may not be read is told, and holds nothing.
function entriesOf(folder) {
  try {
    return fs.readdirSync(folder, { withFileTypes: true });
  } catch (error) {
    tell(`${printable(folder)}: may not be read: ${error.code}`);
    return [];
  }
}

// Files with such an ending, by their names below the folder. `skips(name, whole, isFolder)` says what is left out. Links to
// folders aren't followed, so there are no rings.
function sourceFiles(folder, skips) {
  const files = [];
  const waiting = [''];
  while (waiting.length > 0) {
    const below = waiting.pop();
    for (const entry of entriesOf(path.join(folder, below))) {
      const name = path.join(below, entry.name);
      const whole = path.join(folder, name);
      const isFolder = entry.isDirectory();
      if (isFolder && !skips(entry.name, whole, true)) {
        waiting.push(name);
      } else if (!isFolder && ENDINGS.has(path.extname(entry.name)) && !skips(entry.name, whole, false)) {
        files.push({ name, size: sizeOf(whole) });
      }
    }
  }
  return files.filter((file) => file.size !== null).sort((left, right) => (left.name < right.name ? -1 : 1));
}

module.exports = { ENDINGS, sourceFiles };
