'use strict';
// What reads a file, in turn: the parser of its language that is nearest to it, and where that is too old for the text newer
// ones and other parsers.

const path = require('path');
const { Refusal } = require('./refusal');
const { isMissing } = require('./load');
const { isBefore } = require('./parsers');

// A call that is made when it is first wanted; to look a module up takes as long as to read a small file.
function once(call) {
  let made;
  return () => (made ??= call());
}

// Each way: `parsersIn` gives the parsers for the files of a folder, `read` gives what one made of the text, `write` writes the
// rows below the root and gives the comments.
const WAYS = {
  acorn: once(() => require('./ways/acorn')),
  typescript: once(() => require('./ways/typescript')),
  babel: once(() => require('./ways/babel')),
  estree: once(() => require('./ways/estree')),
};

const TURNS = {
  js: ['acorn', 'typescript', 'babel'],
  jsx: ['typescript', 'acorn', 'babel'],
  ts: ['typescript', 'babel'],
  tsx: ['typescript', 'babel'],
  dts: ['typescript', 'babel'],
};

// Each parser with its way; of those of one name each is newer than those before.
function* turnsFor(names, folder) {
  for (const name of names) {
    const way = WAYS[name]();
    let version;
    for (const parser of way.parsersIn(folder)) {
      if (version !== undefined && !isBefore(version, parser.version)) continue;
      version = parser === null ? undefined : parser.version;
      yield { way, parser };
    }
  }
}

// Of the refusals of several parsers the last counts where that parser knew what those before did not, else the first.
function tellingOf(refusals) {
  const first = refusals[0];
  const last = refusals[refusals.length - 1];
  return !last.isForAge && (last.offset === null || last.offset > first.offset) ? last : first;
}

// What the call gives for the first parser that isn't too old. Options are those of `treeOf`, `lang` the file's language.
function inTurn({ parser, parsers, filename, lang }, call) {
  const names = parser ? [parser] : TURNS[lang];
  const folder = path.resolve(parsers === undefined ? path.dirname(filename || '.') : parsers);
  const refusals = [];
  for (const turn of turnsFor(names, folder)) {
    try {
      return call({ ...turn, folder });
    } catch (error) {
      if (!(error instanceof Refusal)) throw error;
      refusals.push(error);
      if (!error.isForAge) break;
    }
  }
  throw refusals.length > 0 ? tellingOf(refusals) : isMissing(WAYS[names[0]]().module);
}

module.exports = { inTurn };
