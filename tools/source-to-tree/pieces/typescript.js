'use strict';
// Takes TypeScript and JSX in pieces, which TypeScript's compiler parses. It has no call for a part of a text, so a part is handed to it
// as a text of its own, which begins and ends where statements of the program do. What a statement is may depend on the token behind it,
// so the part begins and ends some pieces from what changed; that statements end at the same places there tells that all goes on as
// before. The compiler's own call for a text that changed goes over all nodes instead, and moves those that it keeps.

const typescript = require('../ways/typescript');
const { Annotations } = require('../annotations');
const { commentsOf } = require('../comments');
const { ByteOffsets } = require('../spans');
const { TypeScriptConversion } = require('../typescript');
const { visit } = require('../typescript/visit');
const { isDirective } = require('../typescript/statements');
const { changeBetween } = require('./changes');
const { allFresh, endDirectives, firstTouched } = require('./known');
const { writePiece } = require('./rows');
const { Unfit } = require('./unfit');

const FEWEST_UNITS = 512; // of a piece, but for the last one of a part
const PIECES_BEHIND = 2; // of a part, which are known

const LIKE_A_MODULE = /^\s*(?:import|export)\b/m;
const AWAIT = /\bawait\b/;

// The goal that the name tells. What `await` alone may make a module is read twice, and so as a whole.
function goalFor(text, named) {
  if (named === undefined && AWAIT.test(text) && !LIKE_A_MODULE.test(text)) throw new Unfit();
  return named;
}

// Whether a statement goes on where the one before ends.
const areInRow = (statements) => statements.every(({ pos }, at) => pos === (at === 0 ? 0 : statements[at - 1].end));

// What the compiler makes of the text between two places.
function parsePart(request, from, to, asModule) {
  const text = request.text.slice(from, to);
  const parsed = typescript.parse(text, request, asModule);
  if (typescript.isRefused(parsed) || !areInRow(parsed.statements)) throw new Unfit();
  return { ...parsed, text, from };
}

// A statement by which the compiler takes a text for a module.
function isIndicator(ts, node) {
  return ts.isImportDeclaration(node) || ts.isExportDeclaration(node) || ts.isExportAssignment(node)
    || (node.modifiers || []).some(({ kind }) => kind === ts.SyntaxKind.ExportKeyword)
    || (ts.isImportEqualsDeclaration(node) && ts.isExternalModuleReference(node.moduleReference));
}

function pieceOf({ ts, from }, statements) {
  return {
    start: from + statements[0].pos,
    end: from + statements[statements.length - 1].end,
    statements,
    hasOthers: !statements.every((statement) => isDirective(ts.SyntaxKind, statement)),
    isModule: statements.some((statement) => isIndicator(ts, statement)),
  };
}

// The pieces of some statements of a part.
function piecesOf(part, statements) {
  const pieces = [];
  let group = [];
  statements.forEach((statement, at) => {
    group.push(statement);
    if (at + 1 === statements.length || statement.end - group[0].pos >= FEWEST_UNITS) {
      pieces.push(pieceOf(part, group));
      group = [];
    }
  });
  return pieces;
}

const areModule = (pieces) => pieces.some((piece) => piece.isModule);

// A text whose name doesn't tell is a module by its statements; what only `import.meta` makes one is converted as a whole.
function parseWhole(request) {
  const { text, named } = request;
  const part = parsePart(request, 0, text.length, named === 'module');
  const fresh = piecesOf(part, part.statements);
  if (named !== 'module' && part.isModule && !areModule(fresh)) throw new Unfit();
  return allFresh(fresh, { part, isModule: part.isModule, to: text.length });
}

// How many of a part's statements stand before a known piece, where the part ends with that one and others as they were; else -1.
function countBefore({ statements, from, text }, pieces, moved) {
  const ends = new Map(statements.map(({ end }, at) => [end + from, at + 1]));
  const counts = pieces.map(({ end }) => ends.get(end + moved));
  const isAsBefore = counts.every((count) => count !== undefined) && counts[counts.length - 1] === statements.length;
  const start = pieces[0].start + moved;
  const count = start === from ? 0 : ends.get(start);
  return isAsBefore && count !== undefined && pieces[pieces.length - 1].end + moved === from + text.length ? count : -1;
}

const movedPiece = (piece, units) => ({ ...piece, start: piece.start + units, end: piece.end + units });

// The fresh pieces from one on, up to one that is known; null where they don't come to it.
function parseBetween(request, { pieces, isModule }, { first, next, moved }) {
  const from = pieces[first].start;
  const further = pieces.slice(next, next + PIECES_BEHIND);
  const part = parsePart(request, from, further[further.length - 1].end + moved, isModule);
  const count = countBefore(part, further, moved);
  if (count === -1) return null;
  const to = pieces[next].start + moved;
  const behind = pieces.slice(next).map((piece) => movedPiece(piece, moved));
  return { ...allFresh(piecesOf(part, part.statements.slice(0, count)), { part, to }), behind, from, behindFrom: pieces[next].start, moved };
}

// The fresh pieces from one on to the end.
function parseRest(request, { pieces, isModule }, first) {
  const from = pieces[first].start;
  const part = parsePart(request, from, request.text.length, isModule);
  return { ...allFresh(piecesOf(part, part.statements), { part, to: request.text.length }), from };
}

// Whether what is kept is what it would be made as: neither directives nor the goal have changed for it.
function isKeptRightly({ named }, { pieces, isModule }, { before, fresh, behind, part }, next) {
  if (before.length > 0 && !endDirectives(before)) return false;
  if (behind.length > 0 && !(endDirectives([...before, ...fresh]) && endDirectives(pieces.slice(0, next)))) return false;
  if (named === 'module') return true;
  return isModule ? areModule([...before, ...fresh, ...behind]) : !part.isModule;
}

// Parses a text whose pieces are known but for a change.
function parseAgain(request, known) {
  const { pieces } = known;
  const change = changeBetween(known.text, request.text);
  const first = firstTouched(known, change);
  if (first === -1) return parseWhole(request);
  const next = pieces.findIndex(({ start }, at) => at > first && start >= change.end);
  const isNear = next !== -1 && next + PIECES_BEHIND <= pieces.length;
  const between = isNear ? parseBetween(request, known, { first, next, moved: change.moved }) : null;
  const parsed = { ...(between ?? parseRest(request, known, first)), before: pieces.slice(0, first), isModule: known.isModule };
  return isKeptRightly(request, known, parsed, next) ? parsed : parseWhole(request);
}

// Writes the statements of a piece, the directives of the program as such.
function writeStatements(conversion, statements, mayBeDirectives) {
  if (mayBeDirectives) visit.body(conversion, statements);
  else for (const statement of statements) visit.statement(conversion, 'body', statement);
}

// Writes the pieces that were parsed, and gives what is kept of them, with their comments.
function write(request, { before, fresh, part, to }, writer, begins) {
  const { ts, text, from, faults } = part;
  const { offsets } = writer;
  writer.takeOffsets(new ByteOffsets(text, offsets.at(from)));
  const conversion = new TypeScriptConversion(ts, text, writer, new Annotations(text));
  let mayBeDirectives = !endDirectives(before);
  const pieces = fresh.map(({ statements, ...piece }) => {
    const written = writePiece(writer, begins, () => writeStatements(conversion, statements, mayBeDirectives));
    mayBeDirectives = mayBeDirectives && !piece.hasOthers;
    return { ...piece, ...written };
  });
  writer.takeOffsets(offsets);
  if (typescript.firstOutside(faults.filter(({ start }) => start < to - from), conversion.allowed) !== undefined) throw new Unfit();
  const comments = commentsOf(text.slice(0, to - from), conversion.hidden, conversion.afterHashbang);
  return { pieces, comments: comments.map(({ block, start, end }) => ({ block, start: from + start, end: from + end })) };
}

// The goal of the tree. What is no module by its statements and one by what stands in them is read anew as one.
function goalOf({ named }, { isModule }, pieces) {
  const makeModule = pieces.some((piece) => piece.makesModule);
  if (named === undefined && makeModule !== isModule) throw new Unfit();
  return named || (isModule ? 'module' : 'script');
}

const withoutHashbang = (comments) => comments;

module.exports = { parsersIn: typescript.parsersIn, goalFor, parseWhole, parseAgain, write, goalOf, withoutHashbang };
