'use strict';
// Which files a command is about: files, folders and globs, without what .gitignore leaves out and without node_modules.

const fs = require('fs');
const path = require('path');
const { ENDINGS, sourceFiles } = require('../analyse/folder.js');
const { UsageFault } = require('../bolgwyr/faults.js');
const { load } = require('../source-to-tree/load.js');
const { GitIgnore } = require('./gitignore.js');

const LEFT_OUT = ['**/node_modules/**', '**/.git/**'];

function isFolder(name) {
  return fs.statSync(name, { throwIfNoEntry: false })?.isDirectory() === true;
}

// Characters that a glob has. A name with them that is there is taken as it is.
const isGlob = (word) => /[*?[\]{}()!]/.test(word);

// The source files below a folder, but for hidden ones.
function filesOfFolder(folder) {
  const top = path.resolve(folder);
  const ignored = new GitIgnore(top);
  const skips = (name, whole, isBelow) => {
    return name.startsWith('.') || name === 'node_modules' || ignored.leavesOut(whole, isBelow);
  };
  return sourceFiles(top, skips).map(({ name }) => path.join(folder, name));
}

// A glob is looked for from the folder that stands before its first sign; what it finds may have any ending.
function filesOfGlob(word) {
  const plain = /^(?:[^*?[\]{}()!]*\/)?/.exec(word)[0];
  const top = path.resolve(plain);
  const ignored = new GitIgnore(top);
  const names = load('globby').sync(word.slice(plain.length), { cwd: top, ignore: LEFT_OUT, expandDirectories: false, suppressErrors: true });
  return names.filter((name) => !ignored.leavesOut(path.join(top, name), false)).sort().map((name) => path.join(plain, name));
}

// What the system says of a name, or undefined where nothing is there that could be read.
function statOf(name) {
  try {
    return fs.statSync(name, { throwIfNoEntry: false });
  } catch {
    return undefined;
  }
}

// The files of one word, `{ file, isNamed, size }`; sizes stand where they are known. A file that is named is taken, whatever leaves it out.
function filesOf(word) {
  const found = word === '-' ? undefined : statOf(word);
  const isThere = found !== undefined;
  if (isThere ? !found.isDirectory() : !isGlob(word)) {
    return [{ file: word, isNamed: true, size: found?.size }];
  }
  const files = isThere ? filesOfFolder(word) : filesOfGlob(word);
  if (files.length === 0) {
    throw new UsageFault(`${word}: no source files there (${[...ENDINGS].join(' ')})`);
  }
  return files.map((file) => ({ file, isNamed: false }));
}

// The files of all words, each once, in order.
function sourcesOf(words) {
  const seen = new Map();
  for (const source of words.flatMap(filesOf)) {
    const place = path.resolve(source.file);
    if (!seen.has(place) || source.isNamed) {
      seen.set(place, source);
    }
  }
  return [...seen.values()];
}

module.exports = { filesOfFolder, isFolder, sourcesOf };
