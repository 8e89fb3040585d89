'use strict';
// What bolgwyr rename does: reads the place, and shows or writes what is renamed.

const { hasColour } = require('../bolgwyr/colour.js');
const { STATUS, UsageFault } = require('../bolgwyr/faults.js');
const { say, tell } = require('../analyse/output.js');
const { printable } = require('../analyse/refusal.js');
const { coloured } = require('./coloured-diff.js');
const { diffLines } = require('./diff.js');
const { textOf, writeFiles } = require('./files.js');
const { RenameRefusal, checkName, rename, renameInProject } = require('./index.js');

const BY_PLACE = /^(.+):(\d+):(\d+)$/s;
const BY_NAME = /^(.+):([^:\d][^:]*)$/s;

function placeOf(word) {
  const found = BY_PLACE.exec(word);
  if (found !== null && Number(found[2]) > 0 && Number(found[3]) > 0) {
    return { file: found[1], line: Number(found[2]), column: Number(found[3]) };
  }
  const named = found === null ? BY_NAME.exec(word) : null;
  if (named === null) {
    throw new UsageFault(`${JSON.stringify(word)} is no place: FILE:LINE:COLUMN, both from 1, or FILE:NAME`);
  }
  return { file: named[1], name: named[2] };
}

function showDiff(file, before, after, settings) {
  const lines = diffLines(file, before, after);
  const shown = hasColour(process.stdout, settings) ? coloured(lines) : lines;
  say(shown.map((line) => `${line}\n`).join(''));
}

function refuse(file, refusal, { json }) {
  const place = refusal.line === null ? {} : { line: refusal.line, column: refusal.column };
  if (json) {
    say(`${JSON.stringify({ file, refused: { message: refusal.message, ...place } })}\n`);
  } else {
    refusal.linesFor(file).forEach(tell);
  }
  process.exitCode = STATUS.FOUND;
}

// The changes of files, each `{ file, shown, before, after, edits }`, and warnings.
function found(file, place, to, { parser, goal, project }) {
  if (project !== undefined) {
    return renameInProject({ file, ...place, to, entries: project });
  }
  const before = textOf(file);
  const { text, edits, warnings } = rename(before, { file, ...place, to, parser, goal });
  return { changes: edits.length === 0 ? [] : [{ file, shown: file, before, after: text, edits }], warnings };
}

function show({ changes, warnings }, to, settings) {
  const { json, write } = settings;
  if (json) {
    const files = changes.map(({ shown, edits }) => ({ file: shown, edits }));
    say(`${JSON.stringify({ to, files, warnings, written: write === true && files.length > 0 })}\n`);
    return;
  }
  warnings.forEach((warning) => tell(`warning: ${warning}`));
  for (const { shown, before, after, edits } of changes) {
    if (write) {
      tell(`${printable(shown)}: ${edits.length} ${edits.length === 1 ? 'place' : 'places'} renamed`);
    } else {
      showDiff(shown, before, after, settings);
    }
  }
}

function run(word, to, settings) {
  const { file, ...place } = placeOf(word);
  checkName(to);
  if (settings.project !== undefined && (settings.parser !== undefined || settings.goal !== undefined)) {
    throw new UsageFault('--project goes with neither --parser nor --goal');
  }
  let answer;
  try {
    answer = found(file, place, to, settings);
  } catch (error) {
    if (!(error instanceof RenameRefusal)) {
      throw error;
    }
    refuse(error.file || file, error, settings);
    return;
  }
  if (settings.write) {
    writeFiles(answer.changes);
  }
  show(answer, to, settings);
}

module.exports = { run };
