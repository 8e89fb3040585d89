'use strict';
// Finds marks of punctuation that no parser tells, by passing spaces and comments from a place that it does tell.

const LINE_END = /[\n\r\u2028\u2029]/g;
const SPACE = /[\s\ufeff]/;
const NAME_PART = /[$_\u200c\u200d\p{ID_Continue}]/u;

const ASCII_END = 128;
const SLASH = 0x2f;
const LESS = 0x3c;
const DASH = 0x2d;
const IN_NAMES = Uint8Array.from({ length: ASCII_END }, (_, unit) => (NAME_PART.test(String.fromCharCode(unit)) ? 1 : 0));

function isSpace(unit) {
  if (unit < ASCII_END) return unit === 32 || (unit >= 9 && unit <= 13);
  return SPACE.test(String.fromCharCode(unit));
}

function lineEndFrom(text, at) {
  LINE_END.lastIndex = at;
  const found = LINE_END.exec(text);
  return found === null ? text.length : found.index;
}

// The end of the comment that begins here, or -1. The comments of HTML are those of scripts.
function commentEnd(text, at) {
  const unit = text.charCodeAt(at);
  if (unit !== SLASH && unit !== LESS && unit !== DASH) return -1;
  const next = text[at + 1];
  if (text[at] === '/' && next === '/') return lineEndFrom(text, at);
  if (text[at] === '/' && next === '*') {
    const end = text.indexOf('*/', at + 2);
    return end < 0 ? text.length : end + 2;
  }
  if (text.startsWith('<!--', at) || text.startsWith('-->', at)) return lineEndFrom(text, at);
  return -1;
}

// The next place that is neither space nor in a comment.
function skipTrivia(text, from) {
  let at = from;
  for (;;) {
    while (at < text.length && isSpace(text.charCodeAt(at))) at++;
    const end = at < text.length ? commentEnd(text, at) : -1;
    if (end < 0) return at;
    at = end;
  }
}

// The end of the name that begins here, escapes included.
function nameEnd(text, from) {
  let at = from;
  for (;;) {
    while (IN_NAMES[text.charCodeAt(at)] === 1) at++;
    if (text[at] === '\\') at = text[at + 2] === '{' ? text.indexOf('}', at) + 1 : at + 6;
    const point = text.codePointAt(at);
    if (point === undefined) return at;
    const character = String.fromCodePoint(point);
    if (character !== '\\' && !NAME_PART.test(character)) return at;
    if (character !== '\\') at += character.length;
  }
}

// The first `(` from here, past names, stars and trivia.
function openParenthesis(text, from) {
  let at = skipTrivia(text, from);
  while (at < text.length && text[at] !== '(') {
    const end = text[at] === '*' ? at + 1 : nameEnd(text, at);
    if (end === at) return -1;
    at = skipTrivia(text, end);
  }
  return at;
}

// The place behind the closing mark, past trivia and commas.
function closingEnd(text, from, mark) {
  let at = skipTrivia(text, from);
  while (text[at] === ',') at = skipTrivia(text, at + 1);
  return text[at] === mark ? at + 1 : from;
}

// The place behind the words that begin here and match; a name that is such a word itself is none of them.
function afterWords(text, from, words) {
  let at = from;
  for (;;) {
    const end = nameEnd(text, at);
    const next = skipTrivia(text, end);
    if (!words.test(text.slice(at, end)) || nameEnd(text, next) === next) return at;
    at = next;
  }
}

// The end of a member of a type without the mark that parts it from the next.
function withoutSeparator(text, end) {
  if (text[end - 1] !== ';' && text[end - 1] !== ',') return end;
  let at = end - 1;
  while (isSpace(text.charCodeAt(at - 1))) at--;
  return at;
}

module.exports = { skipTrivia, nameEnd, openParenthesis, closingEnd, lineEndFrom, afterWords, withoutSeparator };
