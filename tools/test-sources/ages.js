'use strict';
// Refusals of syntax that is newer than a parser: each source with the parser, the version from which it reads the source, and
// the rest of the line that an older one gives.

const { treeOf, Refusal } = require('../source-to-tree/convert');
const { parsersFor, isBefore } = require('../source-to-tree/parsers');

const NEVER = '999';
const NAMES = { acorn: 'acorn', typescript: 'TypeScript' };
const NEWER = 'a newer one is found through NODE_PATH or node_modules';
const BABEL = "Babel's does, and is found through NODE_PATH or node_modules";
const KINDLESS = 'nor has the tree a kind for it';

const OLD = [
  ['acorn', '8.15', 'x.js', 'using a = b', '1:7', '`using`', NEWER],
  ['acorn', '8.15', 'x.js', 'for (using a of b);', '1:12', '`using`', NEWER],
  ['acorn', '8.15', 'x.mjs', '{ await using a = b }', '1:15', '`await using`', NEWER],
  ['acorn', '8.14', 'x.mjs', 'export * from "a"\nwith { type: "json" }', '2:1', 'attributes of imports', NEWER],
  ['acorn', '8.14', 'x.js', 'import("a", b)', '1:11', 'options of `import()`', NEWER],
  ['acorn', '8.14', 'x.js', 'a = /[b--c]/v', '1:6', 'regular expressions with the flag `v`', NEWER],
  ['acorn', '8.15', 'x.js', 'a = /(?i:b)/', '1:6', 'this regular expression', NEWER],
  ['acorn', '8.15', 'x.js', 'a = /(?:(?<b>c)|[(](?<b>d))\\k<b>/', '1:6', 'this regular expression', NEWER],
  ['acorn', '8.12', 'x.js', 'let \\u{10EC2}', '1:5', 'this character in names', NEWER],
  ['acorn', NEVER, 'x.js', 'class A { static accessor #b }', '1:27', '`accessor`', BABEL],
  ['acorn', NEVER, 'x.mjs', 'import a from "b" assert { type: "json" }', '1:19', 'assertions of imports', BABEL],
  ['acorn', NEVER, 'x.js', 'class A { @b() c }', '1:11', 'decorators', BABEL],
  ['acorn', NEVER, 'x.mjs', 'import source a from "b"', '1:15', '`import source`', KINDLESS],
  ['acorn', NEVER, 'x.mjs', 'import.defer("a")', '1:8', '`import.defer`', KINDLESS],
  ['typescript', '5.2', 'x.ts', '{ using a = b }', '1:3', '`using`', NEWER],
  ['typescript', '5.2', 'x.ts', 'async () => { await using a = b }', '1:27', '`await using`', NEWER],
  ['typescript', '4.9', 'x.ts', 'class A { static accessor b = 1 }', '1:18', '`accessor`', NEWER],
  ['typescript', '4.9', 'x.ts', 'a satisfies B', '1:1', '`satisfies`', NEWER],
  ['typescript', '4.9', 'x.ts', '(a) satisfies B', '1:5', '`satisfies`', NEWER],
  ['typescript', '5.0', 'x.ts', 'function f<const T>() {}', '1:12', '`const` type parameters', NEWER],
  ['typescript', '5.0', 'x.ts', 'export default @a class B {}', '1:16', 'decorators here', NEWER],
  ['typescript', '5.0', 'x.js', 'class A { #\\u0061 }', '1:11', 'private names that begin with an escape', NEWER],
  ['typescript', '5.6', 'x.mjs', 'let a; export { a as "b c" }', '1:22', 'strings as names of exports', NEWER],
  ['typescript', NEVER, 'x.js', 'class A { b\\u200C }', '1:12', 'this character in names', NEWER],
  ['typescript', '5.3', 'x.mts', 'import a from "b" with { type: "json" }', '1:19', 'attributes of imports', NEWER],
  ['typescript', '5.3', 'x.ts', 'type A = import("b", { with: { c: "d" } })', '1:24', 'attributes of imported types', NEWER],
  ['typescript', NEVER, 'x.mts', 'import source a from "b"', '1:15', '`import source`', KINDLESS],
];

// Refusals that no newer parser would take back, though the words are near.
const PLAIN = [
  ['acorn', 'x.js', 'a.using b', '1:9: Unexpected token'],
  ['acorn', 'x.js', 'using: b c', '1:10: Unexpected token'],
  ['acorn', 'x.js', 'import(a b)', '1:10: Unexpected token'],
  ['acorn', 'x.js', 'import(a[,])', '1:10: Unexpected token'],
  ['acorn', 'x.js', '"a" assert b', '1:5: Unexpected token'],
  ['acorn', 'x.js', '"a" with b', '1:5: Unexpected token'],
  ['acorn', 'x.js', 'a = /[b/v', '1:6: Unterminated regular expression'],
  ['acorn', 'x.js', 'a = /(?<b/', '1:6: Invalid regular expression: /(?<b/: Invalid capture group name'],
  ['acorn', 'x.js', 'a = /(?<b>c)(?:|(?<b>d))/', '1:6: Invalid regular expression: /(?<b>c)(?:|(?<b>d))/: Duplicate capture group name'],
  ['acorn', 'x.js', 'let \\u0021', '1:5: Invalid Unicode escape'],
  ['acorn', 'x.js', 'v\\u0061r a', '1:1: Escape sequence in keyword var'],
  ['acorn', 'x.js', '\\u0076ar a', '1:1: Escape sequence in keyword var'],
  ['typescript', 'x.js', 'if (a) let // a name\nb = 1', '1:8: `let` before a line end is a name here.'],
  ['acorn', 'x.js', 'a = /b/vu', '1:6: Invalid regular expression flag'],
  ['acorn', 'x.js', 'a.@b', "1:3: Unexpected character '@'"],
  ['typescript', 'x.ts', 'let a satisfies', "1:7: ',' expected."],
];

function lineOf(source, filename, parser) {
  try {
    treeOf(source, { filename, parser });
    return 'a tree';
  } catch (error) {
    if (!(error instanceof Refusal)) throw error;
    return error.lineFor(filename);
  }
}

function checkOld(tally, [name, since, filename, source, place, what, help]) {
  const [{ version }] = parsersFor(name, __dirname);
  if (!isBefore(version, since)) return;
  const number = version.split('.').slice(0, 2).join('.');
  const wanted = `${filename}:${place}: ${NAMES[name]} ${number} doesn't know ${what}${help === KINDLESS ? ',' : ';'} ${help}`;
  const found = lineOf(source, filename, name);
  tally.check(`newer than ${name}: ${source}`, found === wanted, found);
}

function checkAges(tally) {
  for (const one of OLD) checkOld(tally, one);
  for (const [name, filename, source, wanted] of PLAIN) {
    const found = lineOf(source, filename, name);
    tally.check(`not newer than ${name}: ${source}`, found === `${filename}:${wanted}`, found);
  }
}

module.exports = { checkAges };
