'use strict';
// What of a text that changed is parsed again, and what is kept: `before` and `behind` are pieces that are known, `fresh` stands between
// them from a place on. What is known is kept from `behindFrom` on, so many units further on.

// The first piece that is parsed again: the one before the first that the change touches, since a statement ends by what follows.
function firstTouched({ pieces }, { start }) {
  return pieces.findIndex((piece, at) => at + 1 === pieces.length || pieces[at + 1].end >= start);
}

// Whether the directives of the program end in one of the pieces: whether a statement is one is known of those behind the first other.
const endDirectives = (pieces) => pieces.some(({ hasOthers }) => hasOthers);

// Nothing is kept.
const allFresh = (fresh, more) => ({ before: [], fresh, behind: [], from: 0, behindFrom: Infinity, moved: 0, ...more });

const movedComment = ({ block, start, end }, units) => ({ block, start: start + units, end: end + units });

// All comments, by those of what was parsed.
function allComments({ from, behindFrom, moved }, fresh, known) {
  if (known === null) return fresh;
  return [
    ...known.comments.filter(({ end }) => end <= from),
    ...fresh,
    ...known.comments.filter(({ start }) => start >= behindFrom).map((comment) => movedComment(comment, moved)),
  ];
}

module.exports = { allComments, allFresh, endDirectives, firstTouched };
