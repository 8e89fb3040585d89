'use strict';
// Source files that are read, and written again whole or not at all.

const fs = require('fs');
const path = require('path');
const { RunFault } = require('../bolgwyr/faults.js');
const { readText } = require('../analyse/files.js');
const { printable } = require('../analyse/refusal.js');

function textOf(file) {
  try {
    return readText(file);
  } catch (error) {
    throw error.lineFor !== undefined ? new RunFault(error.lineFor(file)) : error;
  }
}

const WRITABLE = 0o222;

// A file that nobody may write isn't replaced either, although its folder would allow that.
function checkWritable(file) {
  const stat = fs.statSync(file, { throwIfNoEntry: false });
  if (stat === undefined) {
    throw new RunFault(`${printable(file)}: is gone: nothing is written`);
  }
  if ((stat.mode & WRITABLE) === 0) {
    throw new RunFault(`${printable(file)}: is read-only: nothing is written`);
  }
  try {
    fs.accessSync(file, fs.constants.W_OK);
  } catch {
    throw new RunFault(`${printable(file)}: may not be written: nothing is written`);
  }
}

function checkUnchanged({ file, before }) {
  if (textOf(file) !== before) {
    throw new RunFault(`${printable(file)}: has changed since it was read: nothing is written`);
  }
}

// Writes beside the file that a name leads to, with its rights and owner, and gives both names.
function writeBeside({ file, after }) {
  const target = fs.realpathSync(file);
  const beside = path.join(path.dirname(target), `.${path.basename(target)}.${process.pid}.new`);
  const { mode, uid, gid } = fs.statSync(target);
  const descriptor = fs.openSync(beside, 'wx', mode);
  try {
    fs.writeFileSync(descriptor, after);
    fs.fchmodSync(descriptor, mode & 0o7777);
    const made = fs.fstatSync(descriptor);
    if (made.uid !== uid || made.gid !== gid) {
      fs.fchownSync(descriptor, uid, gid);
    }
    fs.fsyncSync(descriptor);
  } catch (error) {
    fs.unlinkSync(beside);
    throw error;
  } finally {
    fs.closeSync(descriptor);
  }
  return { target, beside };
}

function takeAway(written) {
  written.forEach(({ beside }) => fs.rmSync(beside, { force: true }));
}

function writeAllBeside(changes) {
  const written = [];
  try {
    changes.forEach((change) => written.push(writeBeside(change)));
    changes.forEach(checkUnchanged);
  } catch (error) {
    takeAway(written);
    throw error instanceof RunFault ? error : new RunFault(`nothing is written: ${error.message}`);
  }
  return written;
}

// Puts what was written in the place of the files. A fault here leaves those behind it as they were.
function replaceAll(written) {
  written.forEach(({ target, beside }, at) => {
    try {
      fs.renameSync(beside, target);
    } catch (error) {
      takeAway(written.slice(at));
      throw new RunFault(`${at} of ${written.length} files are written, then: ${error.message}`);
    }
  });
}

// Writes the files, each `{ file, before, after }`: none of them where one has changed meanwhile or can't be written.
function writeFiles(changes) {
  changes.forEach(({ file }) => checkWritable(file));
  replaceAll(writeAllBeside(changes));
}

module.exports = { checkWritable, textOf, writeFiles };
