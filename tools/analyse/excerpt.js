'use strict';
// A line of the source with a mark below it.

const { visible } = require('./visible.js');

// How much of a line is shown where no terminal says how wide it is, in units of the string.
const ROOM_WITHOUT_TERMINAL = 180;
const LEAST_ROOM = 30;

// How much of a line fits beside its number; a character that takes two columns is counted as one.
function roomBeside(number, columns) {
  return columns === undefined ? ROOM_WITHOUT_TERMINAL : Math.max(columns - `  ${number} | `.length, LEAST_ROOM);
}

// From where to where a line of this length is shown: whole, else with a third of the room before the place, and without the room
// for a mark at each end.
function shownPart(length, at, room) {
  if (length <= room) {
    return [0, length];
  }
  const start = Math.max(0, at - Math.floor(room / 3));
  return [start, Math.min(length, start + room - 2)];
}

// What stands below characters that aren't marked: tabs stay, so that the mark stands below its place.
function blank(text) {
  return [...text].map((character) => (character === '\t' ? '\t' : ' ')).join('');
}

// Not between the two halves of a character.
function onCharacter(text, index) {
  const unit = text.charCodeAt(index);
  return unit >= 0xdc00 && unit <= 0xdfff ? index - 1 : index;
}

// The parts of a span's first line: what stands before it, in it and behind it, cut where the line is long.
function partsOf(positions, span, columns) {
  const { text } = positions;
  const start = positions.indexOf(span.start);
  const line = positions.lineOf(start);
  const lineStart = positions.lineStarts[line];
  const lineEnd = Math.max(start, positions.lineEnd(line));
  const end = Math.min(positions.indexOf(span.end), lineEnd);
  const number = String(line + 1);
  const [from, to] = shownPart(lineEnd - lineStart, start - lineStart, roomBeside(number, columns));
  const shownStart = onCharacter(text, lineStart + from);
  const shownEnd = onCharacter(text, lineStart + to);
  return {
    number,
    before: (shownStart > lineStart ? '…' : '') + text.slice(shownStart, start),
    marked: text.slice(start, Math.min(end, shownEnd)),
    behind: text.slice(Math.min(end, shownEnd), shownEnd) + (shownEnd < lineEnd ? '…' : ''),
  };
}

// The columns of the terminal on standard output, if it is one. In a page there is no process.
function columnsOfTerminal() {
  const { isTTY, columns } = globalThis.process?.stdout ?? {};
  return isTTY === true && columns > 0 ? columns : undefined;
}

// Two lines: the source's, and a row of carets with what is said of the place. An empty span has one caret.
function excerpt(positions, span, said, columns = columnsOfTerminal()) {
  const { number, before, marked, behind } = partsOf(positions, span, columns);
  const carets = '^'.repeat(Math.max(1, [...marked].length));
  const remark = said === null ? '' : ` ${visible(said)}`;
  return [
    `  ${number} | ${visible(before + marked + behind)}`,
    `  ${' '.repeat(number.length)} | ${blank(before)}${carets}${remark}`,
  ];
}

module.exports = { excerpt };
