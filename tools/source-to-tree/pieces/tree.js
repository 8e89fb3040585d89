'use strict';
// The trees of a text that changes: what stands in pieces before and behind a change is taken from the tree before. A text that is no
// program, or that says something of pure code, is converted as a whole.

const path = require('path');
const { treeOf } = require('../convert');
const { languageOf, goalOf } = require('../languages');
const { firstPlace } = require('../row-places');
const { ByteOffsets, MARK_BYTES } = require('../spans');
const { TreeWriter } = require('../writer');
const { MARK, hashbang, isOverflow } = require('../once');
const { kindOf } = require('../kinds');
const { Refusal } = require('../refusal');
const { allComments } = require('./known');
const { Begins, writeBefore, writeBehind } = require('./rows');
const { Unfit } = require('./unfit');

const ANNOTATION = /__(?:PURE|NO_SIDE_EFFECTS)__/;

// The way of each language to its pieces.
const acorn = () => require('./acorn');
const typescript = () => require('./typescript');
const WAYS = { js: acorn, jsx: typescript, ts: typescript, tsx: typescript, dts: typescript };

// Options that ask for another way to the tree.
const OTHERS = ['parser', 'parsers', 'goal', 'lang', 'tree'];

// The text, its parser and its goal.
function requestOf(source, options) {
  const { filename } = options;
  const text = source.startsWith(MARK) ? source.slice(1) : source;
  if (ANNOTATION.test(text) || OTHERS.some((name) => options[name] !== undefined)) throw new Unfit();
  const lang = languageOf(filename);
  const way = WAYS[lang]();
  const [parser] = way.parsersIn(path.resolve(path.dirname(filename)));
  if (parser === undefined) throw new Unfit();
  const named = goalOf(filename);
  return { source, text, filename, lang, way, parser, named, goal: way.goalFor(text, named), isMarked: text !== source };
}

// For how many more than there were before there is room.
const FEW_COMMENTS = 100;

// Writes the tree of what was parsed, and gives what is known of the text then.
function written(request, parsed, known) {
  const { source, text, lang, way, isMarked } = request;
  const offsets = new ByteOffsets(text, isMarked ? MARK_BYTES : 0);
  const writer = new TreeWriter(offsets, lang, FEW_COMMENTS + (known?.comments.length ?? 0));
  const begins = new Begins();
  writer.open('root', kindOf('Program'), 0, text.length);
  hashbang(writer, text);
  const firstRow = begins.addWritten(writer.bytes, writer.start);
  writeBefore(writer, begins, known, parsed.before);
  const fresh = way.write(request, parsed, writer, begins);
  if (parsed.behind.length > 0) writeBehind(writer, begins, known, parsed.behind, offsets.at(text.length) - known.bytes);
  writer.close();
  const pieces = [...parsed.before, ...fresh.pieces, ...parsed.behind];
  const comments = allComments(parsed, fresh.comments, known);
  const goal = way.goalOf(request, parsed, pieces);
  const { end } = writer.bytes;
  const json = writer.finish({ source, lang, goal, comments: way.withoutHashbang(comments, text) });
  return {
    request,
    text,
    bytes: offsets.at(text.length),
    json,
    firstRow,
    begins: begins.all(end, firstPlace(json) - writer.start),
    numbers: begins.allNumbers(),
    pieces,
    anew: fresh.pieces.length, // pieces
    comments,
    isModule: parsed.isModule,
  };
}

// Whether the tree before is of use: the same parser reads the text in the same way.
const isOfUse = (known, request) => known !== null
  && ['filename', 'parser', 'goal', 'isMarked'].every((key) => known.request[key] === request[key]);

const isSyntaxError = (error) => error instanceof SyntaxError && error.pos !== undefined;

// What is wrong with the text is told by the conversion of the whole.
const asksForWhole = (error) => error instanceof Unfit || error instanceof Refusal || isSyntaxError(error) || isOverflow(error);

// One text that changes.
class ChangingTree {
  constructor() {
    this.known = null; // of the last text that was taken in pieces
  }

  // As `treeOf`, with the places of the rows where they are known.
  treeOf(source, options) {
    const { clock = {} } = options;
    try {
      const request = requestOf(source, options);
      const started = performance.now();
      const known = isOfUse(this.known, request) ? this.known : null;
      const parsed = known === null ? request.way.parseWhole(request) : request.way.parseAgain(request, known);
      const read = performance.now();
      this.known = written(request, parsed, known);
      clock.parser = read - started;
      clock.conversion = performance.now() - read;
    } catch (error) {
      if (!asksForWhole(error)) throw error;
      return this.wholeOf(source, options);
    }
    return { json: this.known.json, source, places: this.known.begins };
  }

  // What could be read nevertheless is taken in pieces anew at the next change.
  wholeOf(source, options) {
    const whole = treeOf(source, options);
    this.known = null;
    return whole;
  }
}

module.exports = { ChangingTree };
