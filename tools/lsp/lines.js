'use strict';
// The lines of a text as the protocol counts them: LF, CRLF and CR alone end one. A character is a unit of UTF-16, or a byte of
// UTF-8 where client and server agree on that.

const ENDING = /\r\n|\n|\r/g;
const LAST_ENDING = /(?:\r\n|\n|\r)$/;

// The lines with their endings. The last one has none, and may be empty.
function splitLines(text) {
  const lines = [];
  let start = 0;
  ENDING.lastIndex = 0;
  while (ENDING.test(text)) {
    lines.push(text.slice(start, ENDING.lastIndex));
    start = ENDING.lastIndex;
  }
  lines.push(text.slice(start));
  return lines;
}

const lengthOf = (line) => line.length - (LAST_ENDING.exec(line)?.[0].length ?? 0);

// The unit of a line at which a character of it begins. What is beyond its end is its end.
const UNITS = {
  'utf-16': (line, character) => Math.min(character, lengthOf(line)),
  'utf-8': (line, character) => {
    const bytes = Buffer.from(line.slice(0, lengthOf(line)), 'utf8');
    return bytes.toString('utf8', 0, startOfCharacter(bytes, Math.min(character, bytes.length))).length;
  },
};

// A place within the bytes of a character is its start.
function startOfCharacter(bytes, place) {
  let at = place;
  while (at > 0 && at < bytes.length && (bytes[at] & 0xc0) === 0x80) {
    at -= 1;
  }
  return at;
}

// Line and unit of a position; what is beyond the last line is the end.
function locate(lines, { line, character }, encoding) {
  if (line >= lines.length) {
    return { line: lines.length - 1, unit: lines[lines.length - 1].length };
  }
  return { line, unit: UNITS[encoding](lines[line], character) };
}

// As many lines as one splice is handed as words.
const MOST_AT_ONCE = 10_000;

function replaceLines(lines, start, count, pieces) {
  if (pieces.length > MOST_AT_ONCE) {
    return lines.slice(0, start).concat(pieces, lines.slice(start + count));
  }
  lines.splice(start, count, ...pieces);
  return lines;
}

// The lines with a range's text replaced; the list may be changed. Only the lines that the range touches are read.
function changeLines(lines, { range, text }, encoding) {
  const from = locate(lines, range.start, encoding);
  const to = locate(lines, range.end, encoding);
  const isBackwards = to.line < from.line || (to.line === from.line && to.unit < from.unit);
  const last = isBackwards ? from : to;
  let first = from.line;
  let piece = lines[first].slice(0, from.unit) + text + lines[last.line].slice(last.unit);
  // What now begins with LF ends a line before that ended with CR.
  if (first > 0 && piece.startsWith('\n') && lines[first - 1].endsWith('\r')) {
    first -= 1;
    piece = lines[first] + piece;
  }
  const pieces = splitLines(piece);
  if (last.line < lines.length - 1) {
    pieces.pop(); // what is behind the piece's last ending is the next line
  }
  return replaceLines(lines, first, last.line - first + 1, pieces);
}

module.exports = { changeLines, splitLines };
