'use strict';
// Sources with a mark before the name that is meant.

const MARK = '§';

// Line and column of the mark, and the text without it.
function unmarked(marked) {
  const [before, behind] = marked.split(MARK);
  const lines = before.replace(/^\ufeff/, '').split(/\r\n|[\n\r\u2028\u2029]/);
  return { text: before + behind, line: lines.length, column: [...lines[lines.length - 1]].length + 1 };
}

module.exports = { unmarked };
