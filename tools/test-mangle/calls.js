'use strict';
// Tries the call in a module: texts before and after, and what it throws.

const { SourceMapConsumer } = require('../source-to-tree/load.js').load('source-map');
const { mangle } = require('../mangle/index.js');

const KEPT = null; // the text stays as it is

const TEXTS = [
  { name: 'a local', text: 'function f(longer) { return longer + 1; }', wanted: 'function f(e) { return e + 1; }' },
  { name: 'a property in short', text: 'function f(longer) { return { longer }; }', wanted: 'function f(e) { return { longer: e }; }' },
  { name: 'a pattern in short', text: 'function f({ longer = 1 }) { return longer; }', wanted: 'function f({ longer: e = 1 }) { return e; }' },
  { name: 'comments and spaces', text: 'function f( longer ) { /* longer */ return  longer }', wanted: 'function f( e ) { /* longer */ return  e }' },
  { name: 'an escape', text: 'function f(l\\u006fnger) { return longer; }', wanted: 'function f(e) { return e; }' },
  { name: 'properties and labels', text: 'longer: for (;;) { a.longer; break longer; }', wanted: KEPT },
  { name: 'an import', text: 'import { parse } from "a"; parse(parse, parse, parse, parse);', file: 'a.mjs', wanted: 'import { parse as e } from "a"; e(e, e, e, e);' },
  { name: 'an exported declaration', text: 'export function longer() { return longer; }', file: 'a.mjs', wanted: KEPT },
  { name: 'an exported name', text: 'let longer = 1; longer += longer; export { longer };', file: 'a.mjs', wanted: 'let e = 1; e += e; export { e as longer };' },
  { name: 'the names of CommonJS', text: 'module.exports = exports = require("a");', wanted: KEPT },
  { name: 'a direct eval', text: 'function f(longer) { eval("longer"); }', wanted: KEPT },
  { name: 'with', text: 'function f(longer, o) { with (o) { longer; } }', wanted: KEPT },
  { name: 'a script', text: 'let total = 1; total += total;', wanted: KEPT },
  { name: 'a script with toplevel', text: 'let total = 1; total += total;', toplevel: true, wanted: 'let e = 1; e += e;' },
  { name: 'types', text: 'function f<Long>(longer: Long): Long { return longer; }', file: 'a.mts', wanted: 'function e<Long>(e: Long): Long { return e; }' },
  { name: 'a declaration file', text: 'declare function f(longer: string): void;', file: 'a.d.ts', wanted: KEPT },
  { name: 'nothing', text: '', wanted: KEPT },
];

const REFUSED = [
  {
    name: 'a var in a catch clause',
    text: 'function f(a) {\n  try { a(); } catch (error) { var error = 1; }\n}',
    wanted: "1 2:36 `error` can't be followed: a `var` stands in a catch clause that catches its name (ECMAScript B.3.4)",
  },
  {
    name: 'a parameter in type parameters',
    file: 'a.mts',
    text: 'const longer = 1;\nfunction f<T extends typeof longer>(longer: T) {}',
    wanted: "1 2:29 `longer` can't be followed: TypeScript sees no parameter in the type parameters of its function",
  },
  {
    name: 'a short name that an index signature has',
    file: 'a.mts',
    text: 'export function f(longer: 1) { interface I { [e: string]: typeof longer } }',
    wanted: "1 1:66 `e` couldn't be followed: TypeScript means the parameter of the index signature around this use",
  },
  { name: 'no tree', text: 'let a = ;', wanted: '3 undefined:undefined a.js:1:9: Unexpected token' },
  { name: 'half of a character', text: 'let a = "\ud800";', wanted: "3 undefined:undefined a.js: half of a character can't be written as UTF-8" },
];

function thrown(text, file) {
  try {
    mangle(text, { file });
  } catch (error) {
    return `${error.status} ${error.line}:${error.column} ${error.message}`;
  }
  return 'nothing';
}

// Where the map says that a place of the new text comes from.
function mapped(expect) {
  const source = 'export function f(été) {\n  return { été };\n}\n';
  const { text, map } = mangle(source, { file: 'a.mjs', map: true });
  expect('a text with a map', 'export function f(e) {\n  return { été: e };\n}\n', text);
  const consumer = new SourceMapConsumer(JSON.parse(map.toString()));
  const { source: from, line, column, name } = consumer.originalPositionFor({ line: 1, column: 18 });
  expect('the place of a name', 'a.mjs 1:18 été', `${from} ${line}:${column} ${name}`);
  expect('the source in the map', source, consumer.sourceContentFor('a.mjs'));
  expect('no map', null, mangle(source, { file: 'a.mjs' }).map);
}

function calls(expect) {
  for (const { name, text, file = 'a.js', toplevel = false, wanted } of TEXTS) {
    expect(name, wanted ?? text, mangle(text, { file, toplevel }).text);
  }
  REFUSED.forEach(({ name, text, file = 'a.js', wanted }) => expect(name, wanted, thrown(text, file)));
  mapped(expect);
}

module.exports = { calls };
