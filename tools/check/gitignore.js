'use strict';
// What the .gitignore of folders leave out: each speaks of what stands below its folder, and the inner ones go before.

const fs = require('fs');
const path = require('path');
const { load } = require('../source-to-tree/load.js');

// The list of one folder, or null where it has none.
function listOf(folder) {
  let text;
  try {
    text = fs.readFileSync(path.join(folder, '.gitignore'), 'utf8');
  } catch {
    return null;
  }
  return { folder, patterns: load('ignore')().add(text) };
}

// The folders from the repository's top down to this one; this one alone outside of a repository.
function foldersDownTo(folder) {
  const folders = [folder];
  for (let at = folder; !fs.existsSync(path.join(at, '.git')); at = path.dirname(at)) {
    if (path.dirname(at) === at) {
      return [folder];
    }
    folders.unshift(path.dirname(at));
  }
  return folders;
}

function below(folder, file) {
  const name = path.relative(folder, file);
  return path.sep === '/' ? name : name.split(path.sep).join('/');
}

// Answers for the files and folders that a walk from `top`, a whole path, comes to.
class GitIgnore {
  constructor(top) {
    const lists = foldersDownTo(top).map(listOf).filter((list) => list !== null);
    this.lists = new Map([[top, lists]]);
  }

  // The lists that speak of what stands in a folder.
  listsFor(folder) {
    if (!this.lists.has(folder)) {
      const around = this.listsFor(path.dirname(folder));
      const own = listOf(folder);
      this.lists.set(folder, own === null ? around : [...around, own]);
    }
    return this.lists.get(folder);
  }

  // Whether a whole path is left out, where no folder around it is.
  leavesOut(file, isFolder) {
    let left = false;
    for (const { folder, patterns } of this.listsFor(path.dirname(file))) {
      const { ignored, unignored } = patterns.test(below(folder, file) + (isFolder ? '/' : ''));
      left = ignored || (left && !unignored);
    }
    return left;
  }
}

module.exports = { GitIgnore };
