'use strict';
// Converts texts that have each kind of token and node, before many others. The engine makes optimized code for what a function has met
// so far, and makes it anew for what it hasn't; where all is met at first, less is made twice, and what is made is of more use.

const fs = require('fs');
const path = require('path');
const { treeOf } = require('../convert');

// The texts, with their goals.
const TEXTS = [['script.txt', 'script'], ['module.txt', 'module']];

const textOf = (file) => fs.readFileSync(path.join(__dirname, file), 'utf8');

// With the parser for the files of a folder. An old one refuses what it doesn't know, and has met what stands before that; what else goes
// wrong here does so with a file, too, where it is told.
function warmUp(folder) {
  for (const [file, goal] of TEXTS) {
    try {
      treeOf(textOf(file), { filename: path.join(folder, 'text.js'), parser: 'acorn', goal });
    } catch {
      continue;
    }
  }
}

module.exports = { TEXTS, textOf, warmUp };
