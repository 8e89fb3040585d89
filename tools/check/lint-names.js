'use strict';
// The proved lint of names over source files, with lines and columns.

const { askAbout } = require('../analyse/analysis.js');
const { readText } = require('../analyse/files.js');
const { say, tell } = require('../analyse/output.js');
const { Refusal, printable } = require('../analyse/refusal.js');
const { convertText } = require('../analyse/tree.js');
const { visible } = require('../analyse/visible.js');
const { STATUS } = require('../bolgwyr/faults.js');
const { Answers } = require('./answers.js');

// All that the lint says of a text: `{ kind, id, name, span, line, column }` each. Settings: `file`, `known`, `parser`, `goal`.
function lintText(text, settings) {
  const tree = convertText(text, settings);
  const names = askAbout(tree, 'name_lint', settings.known).stdout;
  const answers = new Answers({ text, tree, names });
  return answers.names.map((name) => ({ ...name, ...answers.positions.placeOf(name.span.start) }));
}

function lines(file, found) {
  return found.map(({ kind, name, line, column }) => `${printable(file)}:${line}:${column}: ${kind} ${visible(name)}\n`).join('');
}

function statusOfFile({ file, name }, options) {
  try {
    const { known, parser, goal } = options;
    const found = lintText(readText(file), { file: name, known, parser, goal });
    say(lines(name, found));
    return found.length === 0 ? STATUS.CLEAN : STATUS.FOUND;
  } catch (error) {
    if (!(error instanceof Refusal)) {
      throw error;
    }
    tell(error.lineFor(name));
    return error.line === undefined ? STATUS.FAILED : STATUS.FOUND;
  }
}

// Tells what the lint says of files, `{ file, name }` each, and gives the status: the greatest of theirs.
function lintFiles(files, options) {
  return files.map((file) => statusOfFile(file, options)).reduce((worst, status) => Math.max(worst, status), STATUS.CLEAN);
}

module.exports = { lintFiles, lintText };
