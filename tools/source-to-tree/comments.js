'use strict';
// Finds comments in a text whose strings, templates, regular expressions and texts of JSX are known: in what is left, `//`
// and `/*` begin comments and nothing else.

const { lineEndFrom } = require('./trivia');

const BEGIN = /\/[/*]/g;

function commentAt(text, start) {
  if (text[start + 1] === '/') return { block: false, start, end: lineEndFrom(text, start) };
  const close = text.indexOf('*/', start + 2);
  return { block: true, start, end: close < 0 ? text.length : close + 2 };
}

// The comments in order, from the place given on; hidden is a list of starts and ends in any order.
function commentsOf(text, hidden, from) {
  const ranges = hidden.sort((a, b) => a[0] - b[0]);
  const comments = [];
  let next = 0;
  BEGIN.lastIndex = from;
  for (let found = BEGIN.exec(text); found !== null; found = BEGIN.exec(text)) {
    while (next < ranges.length && ranges[next][1] <= found.index) next++;
    if (next < ranges.length && ranges[next][0] <= found.index) {
      BEGIN.lastIndex = ranges[next][1];
      continue;
    }
    const comment = commentAt(text, found.index);
    comments.push(comment);
    BEGIN.lastIndex = comment.end;
  }
  return comments;
}

module.exports = { commentsOf };
