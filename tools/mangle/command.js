'use strict';
// What bolgwyr mangle does: reads files, and shows or writes them with short names.

const path = require('path');
const { RunFault, STATUS, UsageFault } = require('../bolgwyr/faults.js');
const { say, tell } = require('../analyse/output.js');
const { printable } = require('../analyse/refusal.js');
const { nameOf } = require('../bolgwyr/commands/sources.js');
const { checkWritable, textOf, writeFiles } = require('../rename/files.js');
const { RenameRefusal, mangle } = require('./index.js');
const { targetOf } = require('./target.js');
const { putFile } = require('./put-file.js');

// The text with the comment that leads to its map, and the map.
function withMap({ text, map }, file, target) {
  const mapFile = `${target}.map`;
  const source = path.relative(path.dirname(target), file).split(path.sep).map(encodeURIComponent).join('/');
  const end = text === '' || text.endsWith('\n') ? '' : '\n';
  return {
    text: `${text}${end}//# sourceMappingURL=${encodeURIComponent(path.basename(mapFile))}\n`,
    mapFile,
    map: `${JSON.stringify({ ...map, file: path.basename(target), sources: [source] })}\n`,
  };
}

// Where the file is written: the map first, so that no text leads to a map that isn't there.
function put(file, before, { text, map }, target) {
  const done = map === null ? { text } : withMap({ text, map }, file, target);
  if (target === file) {
    checkWritable(file);
  }
  if (done.map !== undefined) {
    putFile(done.mapFile, done.map);
  }
  if (target !== file) {
    putFile(target, done.text);
  } else if (done.text !== before) {
    writeFiles([{ file, before, after: done.text }]);
  }
}

function tellSizes(name, before, { text }) {
  tell(`${printable(name)}: ${Buffer.byteLength(before)} bytes, mangled ${Buffer.byteLength(text)}`);
}

function mangleFile({ file, target }, settings) {
  const { parser, goal, toplevel, sourceMap: map } = settings;
  const name = nameOf(file, settings);
  const before = textOf(file);
  const mangled = mangle(before, { file: name, parser, goal, toplevel, map });
  if (target === null) {
    say(mangled.text);
  } else {
    put(file, before, mangled, target);
  }
  tellSizes(name, before, mangled);
}

// Mangles one file, and gives the status. What stops it is told, and doesn't stop the others.
function attempt(place, settings) {
  try {
    mangleFile(place, settings);
    return STATUS.CLEAN;
  } catch (error) {
    if (error instanceof RenameRefusal) {
      tellRefusal(nameOf(place.file, settings), error);
      return STATUS.FOUND;
    }
    if (!(error instanceof RunFault)) {
      throw error;
    }
    tell(`bolgwyr: ${error.message}`);
    return STATUS.FAILED;
  }
}

function tellRefusal(name, { message, line, column, excerpt }) {
  const told = Object.assign(new RenameRefusal(`is left as it is: ${message}`), { line, column, excerpt });
  told.linesFor(name).forEach(tell);
}

function checkWords(files, { write, out, sourceMap }) {
  if (write && out !== undefined) {
    throw new UsageFault('one of --write and -o is wanted');
  }
  const isShown = !write && out === undefined;
  if (isShown && files.length > 1) {
    throw new UsageFault('several files want --write or -o');
  }
  if (isShown && sourceMap) {
    throw new UsageFault('--source-map wants --write or -o');
  }
  if (!isShown && files.includes('-')) {
    throw new UsageFault('standard input goes to standard output: no --write, no -o');
  }
}

function run(words, settings) {
  const files = [...new Set(words.map((word) => (word === '-' ? word : path.normalize(word))))];
  checkWords(files, settings);
  const places = files.map((file) => ({ file, target: targetOf(file, settings) }));
  process.exitCode = Math.max(...places.map((place) => attempt(place, settings)));
}

module.exports = { run };
