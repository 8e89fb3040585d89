'use strict';
// Where `/* @__PURE__ */` and `/* @__NO_SIDE_EFFECTS__ */` stand: the places of the code that follows each.

const { skipTrivia, lineEndFrom } = require('./trivia');

const WORD = /[@#]__(PURE|NO_SIDE_EFFECTS)__/g;
const ENDS = ['PURE__', 'NO_SIDE_EFFECTS__']; // of which a text with a word has one; to look for them takes less than the pattern does
const REACH = 200; // how far before the word its comment may begin

// The end of the comment round the word at this place, or -1.
function endOfCommentRound(text, at) {
  const first = Math.max(0, at - REACH);
  const before = text.slice(first, at);
  const block = before.lastIndexOf('/*');
  if (block >= 0 && block > before.lastIndexOf('*/')) {
    const end = text.indexOf('*/', at);
    return end < 0 ? -1 : end + 2;
  }
  return /\/\/[^\n\r\u2028\u2029]*$/.test(before) ? lineEndFrom(text, at) : -1;
}

class Annotations {
  constructor(text) {
    this.PURE = new Set();
    this.NO_SIDE_EFFECTS = new Set();
    if (!ENDS.some((end) => text.includes(end))) return;
    let start = -1; // of the code behind the last comment; words before it stand in comments before the same code
    for (const { index, 1: word } of text.matchAll(WORD)) {
      if (index >= start) {
        const end = endOfCommentRound(text, index);
        start = end < 0 ? -1 : skipTrivia(text, end);
      }
      if (start >= 0) this[word].add(start);
    }
  }

  // True for the first call or `new` that begins at a place behind the word.
  takesPure(start) {
    return this.PURE.size > 0 && this.PURE.delete(start);
  }

  // True for a function that begins at a place behind the word.
  takesNoSideEffects(start) {
    return this.NO_SIDE_EFFECTS.size > 0 && this.NO_SIDE_EFFECTS.delete(start);
  }

  // What stands before an export or a constant is said of the function in it.
  passOn(from, to) {
    if (this.NO_SIDE_EFFECTS.size > 0 && this.NO_SIDE_EFFECTS.delete(from)) this.NO_SIDE_EFFECTS.add(to);
  }
}

module.exports = { Annotations };
