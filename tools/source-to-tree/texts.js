'use strict';
// Texts of nodes: values without lone halves of characters, and the base of a number by its spelling.

const HALF = /[\ud800-\udfff]/;
const LONE_HALF = /[\ud800-\udbff](?![\udc00-\udfff])|(?<![\ud800-\udbff])[\udc00-\udfff]/;
const LONE_HALVES = new RegExp(`${LONE_HALF.source}|\\ufffd`, 'g');

// A value as UTF-8 can hold it: where it has a lone half of a character, each one and each U+FFFD becomes U+FFFD and four
// hexadecimal digits, so different values stay different.
function wholeCharacters(value) {
  if (!HALF.test(value) || !LONE_HALF.test(value)) return value;
  return value.replace(LONE_HALVES, (unit) => `\ufffd${unit.charCodeAt(0).toString(16).padStart(4, '0')}`);
}

// A spelling with the line ends that the language gives to templates.
function withLineFeeds(raw) {
  return raw.replace(/\r\n?/g, '\n');
}

const ESCAPE = /\\(?:u\{([0-9a-fA-F]+)\}|u([0-9a-fA-F]{4})|x([0-9a-fA-F]{2})|([0-3][0-7]{0,2}|[4-7][0-7]?)|(\r\n|[^]))/g;
const SINGLE = { b: '\b', f: '\f', n: '\n', r: '\r', t: '\t', v: '\v', '\n': '', '\r': '', '\r\n': '', '\u2028': '', '\u2029': '' };

// The value of a string as it is spelled, without its quotes. Octal escapes count as old scripts have them.
function stringValue(raw) {
  return raw.replace(ESCAPE, (_, braced, four, two, octal, other) => {
    const hex = braced || four || two;
    if (hex) return String.fromCodePoint(parseInt(hex, 16));
    if (octal) return String.fromCharCode(parseInt(octal, 8));
    return other in SINGLE ? SINGLE[other] : other;
  });
}

const PIECE_ESCAPE = /\\(?:u\{([0-9a-fA-F]+)\}|u[0-9a-fA-F]{4}|x[0-9a-fA-F]{2}|0(?![0-9])|([0-9xu])|[^])/g;
const LAST_POINT = 0x10ffff;

// Where in a piece of a template the first escape stands that has no value there, or -1.
function uselessEscape(raw) {
  if (!raw.includes('\\')) return -1;
  for (const { 1: braced, 2: useless, index } of raw.matchAll(PIECE_ESCAPE)) {
    if (useless !== undefined || parseInt(braced, 16) > LAST_POINT) return index;
  }
  return -1;
}

const BASES = { b: 'binary', B: 'binary', o: 'octal', O: 'octal', x: 'hex', X: 'hex' };

// The mark of a number literal.
function numberBase(raw) {
  if (raw.length === 1) return 'decimal';
  if (raw[0] === '0') {
    const base = BASES[raw[1]];
    if (base !== undefined) return base;
    if (/^0[0-7]+$/.test(raw)) return 'octal';
  }
  return /[.eE]/.test(raw) ? 'float' : 'decimal';
}

// True where the name of a JSX element names a variable: no small letter first, and no dash.
function isJsxReference(name) {
  return !/^[a-z]/.test(name) && !name.includes('-');
}

module.exports = { wholeCharacters, withLineFeeds, numberBase, stringValue, uselessEscape, isJsxReference };
