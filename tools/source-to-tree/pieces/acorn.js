'use strict';
// Takes JavaScript in pieces, which acorn parses.

const acorn = require('../ways/acorn');
const { Annotations } = require('../annotations');
const { EstreeConversion } = require('../estree');
const { visit } = require('../estree/visit');
const { changeBetween } = require('./changes');
const { allFresh, endDirectives, firstTouched } = require('./known');
const { isDirective, isInState, movedState, parsePieces } = require('./parsing');
const { writePiece } = require('./rows');
const { Unfit } = require('./unfit');

// The goal by which acorn reads the text where the name tells none: a module where a statement shows it, which is tried first.
const goalFor = (text, named) => named || (acorn.LIKE_A_MODULE.test(text) ? 'module' : 'script');

function parserFor({ parser, goal, text }, comments) {
  return new (acorn.scriptClassFor(parser))(acorn.optionsFor(goal, comments), text);
}

const never = () => false;

// The pieces from a state on, with what is asked of them later.
function piecesFrom(parser, state, mayStop) {
  return parsePieces(parser, state, mayStop).map((piece) => ({
    ...piece,
    hasOthers: !piece.statements.every(isDirective),
    isModule: piece.statements.some(acorn.isModuleStatement),
  }));
}

function parseWhole(request) {
  const comments = [];
  return allFresh(piecesFrom(parserFor(request, comments), null, never), { comments });
}

// The piece that begins where the parser is, and goes on as before; what stands before it up to the piece before is unchanged, too.
function nextPiece(parser, pieces, { byStart, first, change: { end, moved } }) {
  const at = byStart.get(parser.start - moved);
  const isBehind = at > first && pieces[at - 1].end >= end;
  return isBehind && isInState(parser, pieces[at].state, moved) ? at : -1;
}

function movedPiece(piece, units) {
  return { ...piece, start: piece.start + units, end: piece.end + units, state: movedState(piece.state, units) };
}

// Parses a text whose pieces are known but for a change.
function parseAgain(request, known) {
  const { pieces } = known;
  const change = changeBetween(known.text, request.text);
  const first = firstTouched(known, change);
  const before = pieces.slice(0, Math.max(first, 0));
  if (first === -1 || (before.length > 0 && !endDirectives(before))) return parseWhole(request);
  const places = { byStart: new Map(pieces.map(({ start }, at) => [start, at])), first, change };
  const comments = [];
  const parser = parserFor(request, comments);
  let next = -1;
  const fresh = piecesFrom(parser, first === 0 ? null : pieces[first].state, () => {
    next = nextPiece(parser, pieces, places);
    return next !== -1;
  });
  const parsed = { ...allFresh(fresh, { comments }), before, from: first === 0 ? 0 : pieces[first].start };
  if (next === -1) return parsed;
  if (first === 0 && !(endDirectives(fresh) && endDirectives(pieces.slice(0, next)))) return parseWhole(request);
  const { end } = fresh[fresh.length - 1];
  return {
    ...parsed,
    behind: pieces.slice(next).map((piece) => movedPiece(piece, change.moved)),
    comments: comments.filter(({ start }) => start < end),
    behindFrom: pieces[next - 1].end,
    moved: change.moved,
  };
}

// Writes the pieces that were parsed, and gives what is kept of them, with their comments.
function write({ text }, { fresh, comments }, writer, begins) {
  const conversion = new EstreeConversion(text, writer, new Annotations(text));
  const pieces = fresh.map(({ statements, ...piece }) => ({
    ...piece,
    ...writePiece(writer, begins, () => visit.body(conversion, { type: 'Program', body: statements })),
  }));
  return { pieces, comments };
}

// What only all statements together show: names that are exported twice or from nowhere, and a module without a statement of one.
function checkTogether({ named, goal }, pieces) {
  const exported = pieces.flatMap((piece) => piece.exported);
  if (new Set(exported).size < exported.length) throw new Unfit();
  const wanted = pieces.flatMap((piece) => piece.wanted);
  if (wanted.length > 0) {
    const declared = new Set(pieces.flatMap((piece) => piece.declared));
    if (!wanted.every((name) => declared.has(name))) throw new Unfit();
  }
  if (named === undefined && goal === 'module' && !pieces.some((piece) => piece.isModule)) throw new Unfit();
}

// The goal of the tree, where all pieces are those of one text.
function goalOf(request, parsed, pieces) {
  checkTogether(request, pieces);
  return request.named || (pieces.some((piece) => piece.makesModule) ? 'module' : request.goal);
}

module.exports = { parsersIn: acorn.parsersIn, goalFor, parseWhole, parseAgain, write, goalOf, withoutHashbang: acorn.withoutHashbang };
