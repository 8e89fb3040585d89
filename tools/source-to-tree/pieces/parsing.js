'use strict';
// Parses the statements of a program in pieces of some statements each, by acorn, so that a piece can be parsed again by itself: the
// state in which the parser comes to a piece is all that it takes over from the text before, but for names, which each piece notes for
// itself.

const FEWEST_UNITS = 512; // of a piece, but for the last one

// What the parser was made with, what is empty or without meaning between statements, and names.
const APART = new Set(['options', 'input', 'sourceFile', 'keywords', 'reservedWords', 'reservedWordsStrict', 'reservedWordsStrictBind',
  'labels', 'scopeStack', 'undefinedExports', 'regexpState', 'privateNameStack']);

// Places of the token at hand and of the one before.
const PLACES = ['pos', 'start', 'end', 'lastTokStart', 'lastTokEnd'];

// What an equal token has equal, and a place before the token at hand, which no further token can have.
const IMPLIED = new Set([...PLACES, 'value', 'potentialArrowAt']);

const copied = (value) => (Array.isArray(value) ? [...value] : value);

function stateOf(parser) {
  const state = {};
  for (const key of Object.keys(parser)) if (!APART.has(key)) state[key] = copied(parser[key]);
  return state;
}

function setState(parser, state) {
  for (const key of Object.keys(state)) parser[key] = copied(state[key]);
}

// The state where the text before it is so many units longer.
function movedState(state, units) {
  const moved = { ...state };
  for (const key of PLACES) moved[key] += units;
  return moved;
}

const isSameValue = (one, other) => one === other
  || (Array.isArray(one) && Array.isArray(other) && one.length === other.length && one.every((entry, at) => entry === other[at]));

// Whether a parser goes on from here as from a state so many units before: all that it has of its own is equal.
function isInState(parser, state, units) {
  if (!PLACES.every((key) => parser[key] === state[key] + units)) return false;
  const keys = Object.keys(parser).filter((key) => !APART.has(key));
  return keys.length === Object.keys(state).length && keys.every((key) => IMPLIED.has(key) || isSameValue(parser[key], state[key]));
}

const isAtEnd = (parser) => parser.type.label === 'eof';

// The names of the program's scope are those of one piece.
function forget(parser) {
  const [scope] = parser.scopeStack;
  scope.var = [];
  scope.lexical = [];
  scope.functions = [];
  parser.undefinedExports = Object.create(null);
}

// The statements from here on until there are enough, or the parser comes to where it may stop.
function parsePiece(parser, mayStop) {
  const { start } = parser;
  const state = stateOf(parser);
  const exports = Object.create(null);
  const statements = [];
  forget(parser);
  do {
    statements.push(parser.parseStatement(null, true, exports));
  } while (!isAtEnd(parser) && parser.start - start < FEWEST_UNITS && !mayStop(parser));
  const { var: vars, lexical } = parser.scopeStack[0];
  const names = { declared: [...vars, ...lexical], wanted: Object.keys(parser.undefinedExports), exported: Object.keys(exports) };
  return { start, end: parser.lastTokEnd, state, statements, ...names };
}

// The pieces from a state on, or from the beginning of the text where it is null, up to where the parser may stop or to the end.
// It throws what the parser throws.
function parsePieces(parser, state, mayStop) {
  if (state === null) parser.nextToken();
  else setState(parser, state);
  const pieces = [];
  while (!isAtEnd(parser) && !(pieces.length > 0 && mayStop(parser))) pieces.push(parsePiece(parser, mayStop));
  if (state === null) parser.adaptDirectivePrologue(pieces.flatMap(({ statements }) => statements));
  return pieces;
}

const isDirective = ({ directive }) => directive !== undefined;

module.exports = { parsePieces, isInState, movedState, isDirective };
