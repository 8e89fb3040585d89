'use strict';
// Texts that change: what stands between two pieces one behind the other, whole texts one behind the other, and what is put into texts at
// random.

const fs = require('fs');
const path = require('path');
const { treeOf, Refusal } = require('../source-to-tree/convert');
const { JS, ONE_WAY } = require('./cases');

// Long enough for a piece of its own.
const filler = (name) => `function ${name}(list) { return list.map((one) => one.${name}); }\n`.repeat(12);
const [FIRST, LAST] = [filler('f'), filler('é')];

// What stands between two pieces, one behind the other.
const BETWEEN = [
  ['a statement that goes on behind a line end', 'a.js', ['a\nb\n', 'a\n(b)\n', 'a\n[b]\n', 'a\n/b/c\n']],
  ['async before a function', 'a.js', ['asyn\nfunction b() {}\n', 'async\nfunction b() {}\n', 'async function b() {}\n']],
  ['comments', 'a.js', ['/* 1 */ a; // 2\n/* 3 */', '/* 1 */ a1; // 2\n/* 3 */', '/* 1 */ a1; /* 2\n/* 3 */', 'a1; // 2\n/* 3 */', '// 4\n']],
  ['comments of HTML', 'a.js', ['a\n--> b\n', 'a --> b\n', 'a\n<!-- b\n']],
  ['exports', 'a.mjs', ['let a; export { a };\n', 'let b; export { a };\n', 'export let a;\n', 'export let a; export { a };\n', 'export let a; export { a as b };\n']],
  ['what makes a module', 'a.js', ['a;\n', "import 'a';\n", "import 'a';\nawait a;\n", 'await a;\n', 'a;\n']],
  ['await as a name', 'a.js', ['await;\n', 'await; b;\n', 'async (await) => 1;\n']],
  ['pure code', 'a.js', ['a();\n', '/* @__PURE__ */ a();\n', '/* @__PURE__ */\n']],
  ['characters of several bytes', 'a.js', ["'é𝒳';\n", "'é𝒳𝒳';\n", "'\ud835';\n", "'';\n"]],
  ['elements and types', 'a.js', ['a;\n', '<a/>;\n', 'let a: b;\n']],
  ['places of more digits', 'a.js', ['b;', `${'b'.repeat(10_000)};\n`, 'b;\n']],
  ['a statement of TypeScript that goes on behind a line end', 'a.ts', ['a\nb\n', 'a\n(b)\n', 'a\n<b>(c)\n', 'a\n!b\n', 'a as\nb\n', 'a\nas\nb\n']],
  ['words before declarations', 'a.ts', ['abstrac\nclass A {}\n', 'abstract\nclass A {}\n', 'abstract class A {}\n', 'declare\nlet a\n', 'declare let a\n', 'type\nA = b\n', 'type A = b\n', 'namespace\nA\n{}\n', 'namespace A\n{}\n']],
  ['comments of TypeScript', 'a.ts', ['/* 1 */ a; // 2\n/* 3 */', '/* 1 */ a1; /* 2\n/* 3 */', '/* 1 */ a1; /* 2\n', '// 4\n', '/// <reference a="b"/>\n', 'a = "/*"; /**/\n']],
  ['what makes a module of TypeScript', 'a.ts', ['a;\n', "import 'a';\n", "import 'a';\nawait (a);\n", 'await (a);\n', 'import.meta;\n', 'export {};\n', 'import a = b.c;\n', 'export as namespace D;\n', 'a;\n']],
  ['await outside of functions', 'a.mts', ['await\n(a);\n', 'await (a);\nawait\nb;\n', 'await b\nawait\n(c)\nd\n', 'for await (const a of b) await c;\n', 'awai\nb;\n']],
  ['await in a module of TypeScript', 'a.ts', ['export let a = await (b);\n', 'let a = await (b);\n', 'let a = await b;\n', 'export {}\nawait\nb;\n']],
  ['templates and elements', 'a.tsx', ['`a${b}`;\n', '`a${`b`;\n', '`a\n', '<a>{b}// c</a>;\n', '<a>{b/* c */}</a>;\n', '<A<b>/>;\n', 'a < b > c;\n', '(<a/>)\n<b>c</b>\n']],
  ['escapes in templates', 'a.ts', ['t`\\u{`; a;\n', 't`\\u{`; ab;\n', '`\\u{`;\n', 't`\\x1`;\n']],
  ['what may be an arrow function', 'a.ts', ['x = a ? (b) : c\n', 'x = a ? (b) : c\n{ d }\n', 'x = a ? (b) : c => { d }\n', 'x = a ? (b): c => d : e\n', 'async\n(b) => c\n', 'async (b)\n=> c\n']],
  ['elements in JavaScript', 'a.jsx', ['<a b="/*"/>;\n', '<a b="/*">/* c */</a>;\n', 'let a: b;\n', '/* @__PURE__ */ <a/>;\n']],
  ['declarations', 'a.d.ts', ['declare let a: b;\n', 'export declare let a: b;\n', 'declare module "a" { export {} }\n', 'export as namespace C;\n']],
  ['characters of several bytes in TypeScript', 'a.ts', ["'é𝒳' as 'é';\n", "'é𝒳𝒳'!;\n", "'\ud835';\n", "'';\n"]],
  ['a goal that the name tells', 'a.cts', ["import 'a';\n", 'await (b);\n', 'export = c;\n', "import 'a';\nawait (b);\n"]],
];

const DIRECTIVES = "'a';\n".repeat(300);

// Texts whose directives change.
const directiveTexts = (name) => [
  ['directives', name, [`'a';\n'b';\n${FIRST}`, `'a';\n'use strict';\n${FIRST}`, `'a';\nc;\n'use strict';\n${FIRST}`, `'use strict';\n${FIRST}c;\n`]],
  ['many directives', name, [DIRECTIVES + FIRST, `${DIRECTIVES}b;\n${DIRECTIVES}${FIRST}`, DIRECTIVES + DIRECTIVES + FIRST]],
  ['what stands before directives', name, [DIRECTIVES + FIRST, `b;\n${DIRECTIVES}${FIRST}`, DIRECTIVES + FIRST]],
];

// Whole texts one behind the other.
const WHOLE = [
  ...directiveTexts('a.js'),
  ...directiveTexts('a.ts'),
  ['with in strict code', 'a.js', [`'use strict';\n${FIRST}`, `'use strict';\n${FIRST}with (a) b;\n`]],
  ['an export of what stands elsewhere', 'a.mjs', ['let a;\n', 'let b;\n', 'let a;\n', 'export let a;\n'].map((text) => `${FIRST}${text}${LAST}export { a };`)],
  ...['a.js', 'a.ts'].flatMap((name) => [
    ['a byte order mark', name, [`\ufeff${FIRST}a;`, `\ufeff${FIRST}ab;`, `${FIRST}ab;`]],
    ['a hashbang', name, [`#!a\n${FIRST}b;`, `#!ab\n${FIRST}b;`, `#!ab\n${FIRST}bc;`, `//!ab\n${FIRST}bc;`]],
    ['nothing', name, ['', 'a', '', FIRST, '']],
  ]),
];

const AROUND = [FIRST, LAST, LAST];
const EDITS = [...BETWEEN.map(([what, filename, texts]) => [what, filename, texts.map((text) => AROUND[0] + text + AROUND.join(''))]), ...WHOLE];

const PIECES = ['a', ';', '{}', '()', '/* c */', '// d', "'use strict';", 'function f() {}', 'export let z;', 'await 1;', "'é𝒳'", '`', '/',
  '}', '{', "import 'a';", 'export { q };', 'var q = 1;', 'let', 'async', '.b', 'class A { #b; }', 'if (a)', '0x1', 'a\n++\nb'];

const TYPED = [...PIECES, ': T', '<T>', ' as T', '!', '?.', '@d', '@d()', 'enum E { A }', 'namespace N {', 'declare module "m" {}', 'declare ',
  'abstract ', 'type A = B', 'interface I {', '=> ', '(a): b', '? (a) : b', '${', '/*', '*/', 'export = a;', 'import a = require("b");',
  'await (x)', 'for await (a of b);', 'export ', 'default ', '| U', '<', '>', '<div>', '</div>', '\\u{', '#!', 'static {', 'x\n', '?'];

const FILES = [['main.js', 'a.mjs'], ['corpora.js', 'a.mjs'], ['parsers.js', 'a.js'], ['../source-to-tree/writer.js', 'a.cjs'],
  ['../source-to-tree/pieces/tree.js', 'a.mjs'], ['../source-to-tree/pieces/tree.js', 'a.mts'], ['../../index.d.ts', 'a.d.ts']];

const isTree = (source, filename) => {
  try {
    return treeOf(source, { filename }) !== undefined;
  } catch (error) {
    if (error instanceof Refusal) return false;
    throw error;
  }
};

const TIMES = 4; // the small sources stand in a text

// The small sources that a kind of file may hold one behind the other, with a line end behind most marks. What is said of pure code isn't
// taken in pieces.
function smallSources(filename) {
  const sources = [...ONE_WAY, ...JS].map(([, , source]) => source.replace(/([;{}]) /g, '$1\n'))
    .filter((source) => !source.includes('__') && isTree(source, filename));
  const fitting = sources.reduce((list, source) => (isTree([...list, source, ...list, source].join('\n;'), filename) ? [...list, source] : list), []);
  return Array(TIMES).fill(fitting.join('\n;')).join('\n;');
}

// Texts that are changed at random: what each is called, its text, as what it is read, and what is put into it.
const textsToChange = () => [
  ...FILES.map(([file, filename]) => [file, fs.readFileSync(path.join(__dirname, file), 'utf8'), filename, /ts$/.test(filename) ? TYPED : PIECES]),
  ...['a.ts', 'a.mts', 'a.tsx', 'a.jsx'].map((filename) => [`small sources as ${filename}`, smallSources(filename), filename, TYPED]),
];

module.exports = { EDITS, filler, textsToChange };
