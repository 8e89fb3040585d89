'use strict';
// The unified diff of two texts with the same lines but for what stands in them.

const CONTEXT = 3;
const NO_END = '\\ No newline at end of file';

// The lines that differ, in groups that are shown together: each `{ from, to }`, the places of its first and last such line.
function groupsOf(before, after) {
  const groups = [];
  before.forEach((line, at) => {
    const last = groups[groups.length - 1];
    if (line === after[at]) {
      return;
    }
    if (last !== undefined && at - last.to <= 2 * CONTEXT) {
      last.to = at;
    } else {
      groups.push({ from: at, to: at });
    }
  });
  return groups;
}

function lineOf(mark, lines, at) {
  return at === lines.length - 1 ? [`${mark}${lines[at]}`, NO_END] : [`${mark}${lines[at]}`];
}

// Lines that differ stand together, first as they were, then as they are.
function bodyOf(before, after, first, last) {
  const shown = [];
  let added = [];
  for (let at = first; at <= last; at += 1) {
    if (before[at] === after[at]) {
      shown.push(...added, ...lineOf(' ', before, at));
      added = [];
    } else {
      shown.push(...lineOf('-', before, at));
      added.push(...lineOf('+', after, at));
    }
  }
  return [...shown, ...added];
}

// What stands behind the last line feed is a line only where it isn't empty.
function hunkOf(before, after, { from, to }) {
  const end = before[before.length - 1] === '' ? before.length - 2 : before.length - 1;
  const first = Math.max(0, from - CONTEXT);
  const last = Math.min(end, to + CONTEXT);
  const range = `${first + 1},${last - first + 1}`;
  return [`@@ -${range} +${range} @@`, ...bodyOf(before, after, first, last)];
}

// A file's name as the programs that apply diffs take it.
function fileWord(file) {
  if (/[\u0000-\u001f"\\\u007f]/.test(file)) {
    return JSON.stringify(file);
  }
  return /\s/.test(file) ? `${file}\t` : file;
}

// The lines of the diff; none where the texts are the same.
function diffLines(file, textBefore, textAfter) {
  const before = textBefore.split('\n');
  const after = textAfter.split('\n');
  if (before.length !== after.length) {
    throw new Error('the texts have not the same lines');
  }
  const groups = groupsOf(before, after);
  if (groups.length === 0) {
    return [];
  }
  return [`--- ${fileWord(file)}`, `+++ ${fileWord(file)}`, ...groups.flatMap((group) => hunkOf(before, after, group))];
}

module.exports = { diffLines };
