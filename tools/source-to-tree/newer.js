'use strict';
// Syntax that is newer than a parser, told by the words round the place where it refuses a text.

const { Refusal } = require('./refusal');

const REACH = 200; // how far round the place the words are read

const NAME = '[\\p{ID_Start}$_\\\\]';
const BABEL = ['@babel/parser', '@babel/standalone'];
const SPACE = '[ \\t]+'; // the words stand on one line
const words = (pattern) => new RegExp(pattern, 'u');

// Each syntax with what stands before the place, and from it on. `by` tells the parsers that may be too old, where not all
// may; `none` stands where no parser helps, since the tree has no kind for it.
const SYNTAX = [
  { what: '`await using`', before: words(`(?:^|[^.\\p{ID_Continue}$#])await${SPACE}using${SPACE}$`), from: words(`^${NAME}`) },
  { what: '`using`', before: words(`(?:^|[^.\\p{ID_Continue}$#])using${SPACE}$`), from: words(`^${NAME}`) },
  { what: '`using`', before: words('(?:^|[^.])$'), from: words(`^using${SPACE}${NAME}`), by: ['typescript'] },
  { what: '`accessor`', before: words(`(?:^|[^.\\p{ID_Continue}$#])accessor${SPACE}$`), from: words(`^(?:${NAME}|["'#[\\d])`) },
  { what: '`accessor`', before: words('[^.]$'), from: words(`^accessor${SPACE}(?:${NAME}|["'#[\\d])`), by: ['typescript'] },
  { what: '`satisfies`', before: words(`[^.\\s]\\s*$`), from: words(`^satisfies\\s`), by: ['typescript'] },
  { what: '`satisfies`', before: words('(?:^|[^.])$'), from: words(`^[\\p{ID_Continue}$]+${SPACE}satisfies\\s`), by: ['typescript'] },
  { what: 'this character in names', before: words(''), from: words('^#?(?![\\0-\\x7f])[\\p{ID_Start}\\p{ID_Continue}]') },
  { what: 'strings as names of exports', before: words(`\\b(?:import|export)\\b[^;]*(?:\\bas|[{,])\\s*$`), from: words(`^["']`), by: ['typescript'] },
  { what: 'private names that begin with an escape', before: words(''), from: words('^#\\\\u'), by: ['typescript'] },
  { what: 'attributes of imports', before: words(`["']\\s*$`), from: words('^with\\s*\\{') },
  { what: 'assertions of imports', before: words(`["'][ \\t]*$`), from: words('^assert\\s*\\{'), by: ['acorn'] },
  { what: 'attributes of imported types', before: words(`\\(\\s*["'][^"']*["']\\s*,\\s*\\{\\s*$`), from: words('^with\\s*:'), by: ['typescript'] },
  { what: '`const` type parameters', before: words('[<,]\\s*$'), from: words(`^const\\s+${NAME}`), by: ['typescript'] },
  { what: '`const` type parameters', before: words(`<\\s*const\\s+[\\p{ID_Continue}$]+\\s*$`), from: words('^'), by: ['typescript'] },
  { what: 'attributes of imports', before: words(`["']\\s*with\\s*$`), from: words('^\\{'), by: BABEL },
  { what: '`const` type parameters', before: words(`[<,]\\s*const\\s+$`), from: words(`^${NAME}`), by: BABEL },
  { what: 'decorators', before: words('(?:^|[^\\p{ID_Continue}$.])$'), from: words(`^@\\s*(?:${NAME}|\\()`), by: ['acorn'] },
  { what: 'decorators here', before: words(''), from: words(`^(?:export\\s+(?:default\\s+)?)?@\\s*(?:${NAME}|\\()`), by: ['typescript'] },
  { what: '`import source`', before: words(`(?:^|[^.\\p{ID_Continue}$#])import${SPACE}source${SPACE}$`), from: words(`^${NAME}`), none: true },
  { what: '`import defer`', before: words(`(?:^|[^.\\p{ID_Continue}$#])import${SPACE}defer${SPACE}$`), from: words('^\\*'), none: true },
  { what: '`import.source`', before: words('(?:^|[^.\\p{ID_Continue}$#])import\\s*\\.\\s*$'), from: words('^source\\s*\\('), none: true },
  { what: '`import.defer`', before: words('(?:^|[^.\\p{ID_Continue}$#])import\\s*\\.\\s*$'), from: words('^defer\\s*\\('), none: true },
];

const NAMES = { acorn: 'acorn', typescript: 'TypeScript', '@babel/parser': "Babel's parser", '@babel/standalone': "Babel's parser" };
// What no acorn knows, and another parser does.
const HELP = { acorn: { decorators: "Babel's", '`accessor`': "Babel's", 'assertions of imports': "Babel's" } };

const ESCAPE = /^#?\\u(?:\{([\da-f]+)\}|([\da-f]{4}))/i;
const IN_NAMES = /[\p{ID_Continue}\u200c\u200d]/u;

const ASCII = 0x7f;

// An escape of a character that names have. Every parser knows those of ASCII, which may spell words that are no names.
function escapedIn(from) {
  const found = ESCAPE.exec(from);
  const point = found === null ? NaN : parseInt(found[1] || found[2], 16);
  return point > ASCII && point <= 0x10ffff && IN_NAMES.test(String.fromCodePoint(point)) ? { what: 'this character in names' } : undefined;
}

// The syntax at a place that is newer than the parser, else undefined.
function syntaxAt(parser, text, offset) {
  const at = offset + /^[ \t]*/.exec(text.slice(offset, offset + REACH))[0].length; // some tell the end of what stands before
  const before = text.slice(Math.max(0, at - REACH), at);
  const from = text.slice(at, at + REACH);
  return SYNTAX.find((one) => (!one.by || one.by.includes(parser.name)) && one.from.test(from) && one.before.test(before)) || escapedIn(from);
}

function refusalFor({ name, version }, { what, none }, offset) {
  const number = version.split('.').slice(0, 2).join('.');
  const who = `${NAMES[name]} ${number} doesn't know ${what}`;
  const help = (HELP[name] || {})[what] ? `${HELP[name][what]} does, and` : 'a newer one';
  const refusal = new Refusal(none ? `${who}, nor has the tree a kind for it` : `${who}; ${help} is found through NODE_PATH or node_modules`, offset);
  refusal.isForAge = !none;
  return refusal;
}

// The refusal of a parser at a place: that of its age where the syntax there is newer than it, else its own message.
function refusalOf(parser, text, message, offset) {
  const syntax = syntaxAt(parser, text, offset);
  return syntax === undefined ? new Refusal(message, offset) : refusalFor(parser, syntax, offset);
}

module.exports = { refusalOf, refusalFor };
