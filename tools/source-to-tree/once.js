'use strict';
// One conversion of the text of a source file to the JSON of its tree, on the stack that there is.

const { kindOf } = require('./kinds');
const { Refusal } = require('./refusal');
const { ByteOffsets, MARK_BYTES } = require('./spans');
const { TreeWriter } = require('./writer');
const { Annotations } = require('./annotations');
const { lineEndFrom } = require('./trivia');
const { languageOf, goalOf } = require('./languages');
const { inTurn } = require('./turns');

const MARK = '\ufeff';

function hashbang(writer, text) {
  if (!text.startsWith('#!')) return;
  const end = lineEndFrom(text, 2);
  writer.leaf('hashbang', kindOf('Hashbang'), 0, end, text.slice(2, end));
}

// JavaScript with elements is JSX.
const languageIn = (lang, writer) => (lang === 'js' && writer.hasJsx ? 'jsx' : lang);

// The tree's text, the source, what it was read as and what gives the places of the rows. Null where the text was read as a script and is
// found to be a module.
function write(way, parsed, { source, text, lang, goal }) {
  const offsets = new ByteOffsets(text, source.startsWith(MARK) ? MARK_BYTES : 0);
  const writer = new TreeWriter(offsets, lang, parsed.comments === undefined ? 0 : parsed.comments.length);
  writer.open('root', kindOf('Program'), 0, text.length);
  hashbang(writer, text);
  const comments = way.write(parsed, text, writer, new Annotations(text));
  writer.close();
  if (writer.isModule && parsed.asScript) return null;
  const read = { lang: languageIn(lang, writer), goal: goal || (writer.isModule ? 'module' : parsed.goal || 'script') };
  const json = writer.finish({ source, ...read, comments });
  return { json, source, ...read, placesOf: () => writer.placesIn(json) };
}

// What the engine says where the stack ends.
const isOverflow = (error) => error instanceof RangeError && /call stack/.test(error.message);

// Reads and writes with one parser, and tells how long each took.
function attempt(turn, request) {
  const { way, parser, folder } = turn;
  const { text, clock } = request;
  const started = performance.now();
  const parsed = way.read(text, { ...request, parser, folder });
  const read = performance.now();
  const written = write(way, parsed, request);
  if (written === null) return attempt(turn, { ...request, goal: 'module' });
  clock.parser = read - started;
  clock.conversion = performance.now() - read;
  return written;
}

// Options are those of `treeOf`.
function convertOnce(source, options) {
  const { filename, tree, clock = {} } = options;
  const text = source.startsWith(MARK) ? source.slice(1) : source;
  const lang = options.lang || languageOf(filename);
  const goal = options.goal || goalOf(filename);
  const request = { source, text, filename, lang, goal, tree, clock };
  try {
    return inTurn({ ...options, lang }, (turn) => attempt(turn, request));
  } catch (error) {
    throw error instanceof Refusal ? error.placeIn(text) : error;
  }
}

module.exports = { convertOnce, write, isOverflow, hashbang, MARK };
