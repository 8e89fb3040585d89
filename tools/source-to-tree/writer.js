'use strict';
// Writes a tree as JSON: the rows of its nodes in preorder, each node opened before its children and closed behind them.

const { Refusal } = require('./refusal');
const { Bytes, WORD, putHead, putNumber, wordsOf } = require('./bytes');
const { isPlain } = require('./escapes');
const { NearPlaces } = require('./near-places');
const { firstPlace } = require('./row-places');

const DEEPEST = 1000;
const MOST_BYTES = 67108864;

const MARKS = ['async', 'generator', 'declare', 'pure', 'static', 'computed', 'abstract', 'optional', 'definite', 'readonly',
  'override', 'public', 'private', 'protected', 'method', 'shorthand', 'prefix', 'delegate', 'await', 'type', 'const', 'in',
  'out', 'asserts', 'postfix', 'binary', 'octal', 'decimal', 'hex', 'float'];
const PLACE = new Map(MARKS.map((mark, place) => [mark, place]));
const NO_MARKS = [];

const TYPED_ONLY = 'types and declarations of TypeScript stand in TypeScript files only';

const QUOTE = 0x22;

// How a row begins, by its depth: a single word, and how many bytes of it count. The first row is the root's.
const BEGINS = new Float64Array(DEEPEST + 1);
const BEGIN_LENGTHS = new Uint8Array(DEEPEST + 1);
for (let depth = 0; depth <= DEEPEST; depth++) {
  const { words, length } = wordsOf(depth === 0 ? '[0' : `,[${depth}`);
  BEGINS[depth] = words[0];
  BEGIN_LENGTHS[depth] = length;
}

// The end of a row, from the end of its text on, for each mark alone and for none.
const NO_MARK_END = wordsOf('",[]]');
const ENDS = new Map(MARKS.map((mark) => [mark, wordsOf(`",["${mark}"]]`)]));

function endFor(marks) {
  if (marks.length === 1) return ENDS.get(marks[0]);
  const sorted = marks.sort((a, b) => PLACE.get(a) - PLACE.get(b));
  return wordsOf(`",["${sorted.join('","')}"]]`);
}

// Texts that many nodes have, each with what stands behind it where there is no mark.
const TEXTS = ['', 'declaration', 'expression', 'formal', 'unique', 'arrow', 'init', 'get', 'set', 'method', 'constructor', 'const', 'let', 'var',
  'true', 'false', '=', '+=', '-=', '*=', '/=', '%=', '|=', '&=', '^=', '<<=', '>>=', '>>>=', '**=', '||=', '&&=', '??=', '==', '===', '!=', '!==',
  '<', '<=', '>', '>=', '+', '-', '*', '/', '%', '**', '|', '&', '^', '<<', '>>', '>>>', '||', '&&', '??', '!', '~', '++', '--', 'in', 'instanceof',
  'typeof', 'void', 'delete'];
const TAILS = new Map(TEXTS.map((text) => [text, wordsOf(`"${text}",[]]`)]));
const [NO_TEXT] = TAILS.get('').words;
const NO_TEXT_LENGTH = TAILS.get('').length;
const [NAME_END] = NO_MARK_END.words;
const NAME_END_LENGTH = NO_MARK_END.length;

const FEW_ROWS = 1024;
const UNITS_PER_ROW = 8; // or more, as most sources have them

function grown(places) {
  const longer = new Uint32Array(2 * places.length);
  longer.set(places);
  return longer;
}

const ROW_ROOM = 512; // for a row without its text: no role, kind or list of marks is half as long
const LONGEST_NAME = 256; // that has room in it, too

// Bytes of a tree for a unit of its source: more than most have. For a large one it's fewer, since an engine collects garbage where much
// memory is taken at once.
const BYTES_PER_UNIT = 10;
const BYTES_PER_UNIT_OF_LARGE = 8;
const LARGE = 1048576;

const roomFor = (units) => Math.min(units * (units < LARGE ? BYTES_PER_UNIT : BYTES_PER_UNIT_OF_LARGE), MOST_BYTES);

const FEW_ESCAPES = 3; // a text has fewer than one for two to the power of this many bytes, or is rare

const HEAD = 128; // bytes of a tree before its rows, without the comments
const COMMENT = 32; // bytes of a comment
const FIRST_COMMENT = wordsOf('[');
const NEXT_COMMENT = wordsOf(',[');
const BLOCK = wordsOf('"block"]');
const LINE = wordsOf('"line"]');

const MARK = '\ufeff';

const NOWHERE = -1;
const NOT_THERE = -1; // in place of a number of marks: the text isn't taken from the source

class TreeWriter {
  // There is room for so many comments.
  constructor(offsets, lang, comments) {
    const gap = HEAD + COMMENT * comments;
    this.takeOffsets(offsets);
    this.isTyped = lang !== 'js' && lang !== 'jsx';
    this.start = gap;
    this.most = gap + MOST_BYTES;
    this.last = gap; // the place behind the rows
    this.bytes = new Bytes(gap + ROW_ROOM + roomFor(offsets.last));
    this.bytes.end = gap;
    this.places = new Uint32Array(FEW_ROWS + Math.ceil(offsets.last / UNITS_PER_ROW)); // where the rows begin
    this.rows = 0;
    this.depth = 0;
    this.outermost = NOWHERE; // the depth of the outermost function that is open
    this.isModule = false;
    this.hasJsx = false;
  }

  // The places of nodes are those of these offsets from now on.
  takeOffsets(offsets) {
    this.offsets = offsets;
    this.near = new NearPlaces(offsets);
  }

  // A node whose children follow until close.
  open(role, kind, start, end, text = '', marks = NO_MARKS) {
    this.row(role, kind, start, end, NOT_THERE, text, marks);
    if (kind.isFunction && this.outermost === NOWHERE) this.outermost = this.depth;
    this.depth += 1;
  }

  close() {
    this.depth -= 1;
    if (this.depth === this.outermost) this.outermost = NOWHERE;
  }

  leaf(role, kind, start, end, text = '', marks = NO_MARKS) {
    this.row(role, kind, start, end, NOT_THERE, text, marks);
  }

  // A leaf whose text the source has at its place, too, without so many marks on each side, unless that is spelled with escapes there. Where
  // it is as long and begins so, it is copied from there. What has no marks round it has nothing that JSON escapes, either.
  spelled(role, kind, start, end, marksRound, text, marks = NO_MARKS) {
    const { text: source, mayLackHalves } = this.offsets;
    const isThere = !mayLackHalves && text.length === end - start - 2 * marksRound && text.length > 0
      && text.charCodeAt(0) === source.charCodeAt(start + marksRound);
    this.row(role, kind, start, end, isThere ? marksRound : NOT_THERE, text, marks);
  }

  // It writes out what others could do for it, and is so too large for an engine to compile it anew with each function that leads to it.
  row(role, kind, start, end, marksRound, text, marks) {
    const { bytes, near, depth } = this;
    if (depth > DEEPEST) throw new Refusal('too deep');
    if (kind.isTyped && !this.isTyped) throw new Refusal(TYPED_ONLY, start);
    let at = bytes.end;
    if (at + ROW_ROOM > bytes.room) bytes.grow(at + ROW_ROOM);
    if (this.rows === this.places.length) this.places = grown(this.places);
    this.places[this.rows++] = at;
    const { view } = bytes;
    view.setFloat64(at, BEGINS[depth], true);
    at = putHead(view, at + BEGIN_LENGTHS[depth], kind.headFor(role));
    if (!near.has(start)) near.moveTo(start);
    at = near.put(view, at, start);
    const isNear = near.has(end);
    const behind = isNear ? end + near.more : this.offsets.at(end);
    at = isNear ? near.put(view, at, end) : putNumber(view, at, behind);
    const first = start + near.more - this.offsets.shift; // of its bytes in the text
    const length = end - start;
    if (marksRound === 0 && isNear && length <= LONGEST_NAME) {
      view.setUint8(at, QUOTE);
      this.offsets.utf8.copyShort(first, length, view, at + 1);
      at += 1 + length;
      view.setFloat64(at, NAME_END, true);
      bytes.end = at + NAME_END_LENGTH;
      if (marks.length > 0) {
        bytes.end = at;
        bytes.copy(endFor(marks));
      }
    } else if (marksRound === NOT_THERE && text.length === 0 && marks.length === 0) {
      view.setFloat64(at, NO_TEXT, true);
      bytes.end = at + NO_TEXT_LENGTH;
    } else {
      bytes.end = at;
      if (marksRound === NOT_THERE) this.finishText(text, marks);
      else this.finishSpelled(first + marksRound, behind - this.offsets.shift - marksRound, text, marks);
    }
    if (bytes.end > this.most) throw new Refusal('too large');
    if (!kind.isPlain) this.notice(kind, text, marks);
  }

  // The text, which the source has from one byte to another, and what stands behind it.
  finishSpelled(from, to, text, marks) {
    const { bytes } = this;
    bytes.reserve(ROW_ROOM + to - from);
    bytes.view.setUint8(bytes.end, QUOTE);
    const end = this.offsets.utf8.copyPlain(from, to, bytes.view, bytes.end + 1);
    if (end === -1) return this.finishUnits(text, marks);
    bytes.end = end;
    return bytes.copy(marks.length === 0 ? NO_MARK_END : endFor(marks));
  }

  finishText(text, marks) {
    const tail = marks.length > 0 ? undefined : TAILS.get(text);
    return tail === undefined ? this.finishUnits(text, marks) : this.bytes.copy(tail);
  }

  finishUnits(text, marks) {
    const { bytes } = this;
    bytes.reserve(ROW_ROOM + text.length);
    const { view } = bytes;
    let at = bytes.end;
    view.setUint8(at++, QUOTE);
    for (let i = 0; i < text.length; i++, at++) {
      const unit = text.charCodeAt(i);
      if (!isPlain(unit)) return this.finishEscaped(text, marks);
      view.setUint8(at, unit);
    }
    bytes.end = at;
    return bytes.copy(marks.length === 0 ? NO_MARK_END : endFor(marks));
  }

  finishEscaped(text, marks) {
    const { bytes } = this;
    bytes.string(JSON.stringify(text));
    bytes.end -= 1;
    bytes.reserve(ROW_ROOM);
    bytes.copy(marks.length === 0 ? NO_MARK_END : endFor(marks));
  }

  // What tells that the file is a module, or has elements.
  notice(kind, text, marks) {
    if (kind.isJsx) this.hasJsx = true;
    else if (kind.mayAwait) this.noticeAwait(kind, text, marks);
    else if (this.depth === 1 && kind.isModuleStatement) this.isModule = true;
    else if (this.depth === 2 && kind.isExternal) this.isModule = true;
  }

  noticeAwait(kind, text, [mark]) {
    if (this.outermost === NOWHERE && (kind.isAwait || mark === 'await' || text === 'await using')) this.isModule = true;
  }

  // Where the rows begin in the text of the tree, and where the last one ends. Behind the first each has a comma before it.
  placesIn(json) {
    const shift = this.places[0] - firstPlace(json);
    const places = this.places.slice(0, this.rows + 1);
    for (let row = 0; row < this.rows; row++) places[row] += (row === 0 ? 0 : 1) - shift;
    places[this.rows] = this.last - shift;
    return places;
  }

  putComment(head, begin, { block, start, end }) {
    head.reserve(COMMENT);
    head.copy(begin);
    head.end = putNumber(head.view, putNumber(head.view, head.end, this.offsets.at(start)), this.offsets.at(end));
    head.copy(block ? BLOCK : LINE);
  }

  // What stands before the rows.
  headOf({ goal, lang, comments }) {
    const head = new Bytes(HEAD + COMMENT * comments.length);
    head.ascii('{"comments":[');
    for (let i = 0; i < comments.length; i++) this.putComment(head, i === 0 ? FIRST_COMMENT : NEXT_COMMENT, comments[i]);
    head.ascii(`],"format":1,"goal":"${goal}","lang":"${lang}","rows":[`);
    return head.buffer.subarray(0, head.end);
  }

  // The source as a string. The bytes of its text have it but for a mark before it.
  putSource(source) {
    const { bytes, offsets } = this;
    if (offsets.mayLackHalves) return bytes.string(JSON.stringify(source));
    bytes.ascii('"');
    if (offsets.shift > 0) bytes.string(MARK);
    const escapes = offsets.utf8.length >> FEW_ESCAPES;
    bytes.reserve(offsets.utf8.length + escapes + WORD);
    const end = offsets.utf8.copyEscaped(bytes.view, bytes.end, escapes);
    if (end === -1) {
      bytes.string(JSON.stringify(offsets.text).slice(1));
    } else {
      bytes.end = end;
      bytes.ascii('"');
    }
  }

  // The whole text of the tree, as bytes.
  finish({ source, goal, lang, comments }) {
    const { bytes, offsets } = this;
    this.last = bytes.end;
    const head = this.headOf({ goal, lang, comments });
    bytes.ascii('],"source":');
    this.putSource(source);
    bytes.ascii('}');
    offsets.utf8.giveBack();
    if (head.length + bytes.end - this.start > MOST_BYTES) throw new Refusal('too large');
    if (head.length > this.start) return Buffer.concat([head, bytes.buffer.subarray(this.start, bytes.end)]);
    const first = this.start - head.length;
    head.copy(bytes.buffer, first);
    return bytes.buffer.subarray(first, bytes.end);
  }
}

module.exports = { TreeWriter, MOST_BYTES, DEEPEST };
