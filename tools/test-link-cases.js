'use strict';
// Small projects and what `bolgwyr link` says of them: [what, files, lines, options]. The entry is the first file, and the lines are
// those of the format `unix`. A file of null is a folder. Options: `entries`, `strict`, `packages`, `faults` (lines on entries) and `notes`.

const LIB = 'export const node = 1;\nexport default function read() {}\n';

const NAMES = [
  ['names that are there', { 'a.js': "import read, { node } from './lib.js';\nimport * as all from './lib.js';\n", 'lib.js': LIB }, []],
  ['a name that nothing exports, and the nearest', { 'a.js': "import { nope } from './lib.js';\n", 'lib.js': LIB },
    ["a.js:1:10: 'nope' is not exported by ./lib.js (did you mean 'node'?)"]],
  ['nothing near', { 'a.js': "import { elsewhere } from './lib.js';\n", 'lib.js': LIB },
    ["a.js:1:10: 'elsewhere' is not exported by ./lib.js"]],
  ['capitals alone differ', { 'a.js': "import { NODE as n } from './lib.js';\n", 'lib.js': LIB },
    ["a.js:1:10: 'NODE' is not exported by ./lib.js (did you mean 'node'?)"]],
  ['no default export', { 'a.js': "import x from './lib.js';\n", 'lib.js': 'export const y = 1;\n' },
    ['a.js:1:8: ./lib.js has no default export']],
  ['a default import of what has its name', { 'a.js': "import y from './lib.js';\n", 'lib.js': 'export const y = 1;\n' },
    ["a.js:1:8: ./lib.js has no default export (did you mean '{ y }'?)"]],
  ['a default export only', { 'a.js': "import { y } from './lib.js';\n", 'lib.js': 'export default 1;\n' },
    ["a.js:1:10: 'y' is not exported by ./lib.js: it has a default export only"]],
  ['columns count characters', { 'a.js': "/* 𝒳é */ import { nope } from './lib.js';\n", 'lib.js': LIB },
    ["a.js:1:19: 'nope' is not exported by ./lib.js (did you mean 'node'?)"]],
  ['a byte order mark belongs to no column', { 'a.js': "\ufeffimport { nope } from './lib.js';\n", 'lib.js': LIB },
    ["a.js:1:10: 'nope' is not exported by ./lib.js (did you mean 'node'?)"]],
  ['all forms of declarations', {
    'a.js': "import { a, b, c, d, e, f, g, h, i, default as j } from './lib.js';\n",
    'lib.js': 'export var a; export let b = 1; export const { c, x: [d, ...e], y: { f = 2 } } = g;\nexport function g() {} export class h {}\nif (1) { var i; }\nexport { i };\nexport default class {}\n',
  }, []],
  ['a name in a function is no export', { 'a.js': "import { inner } from './lib.js';\n", 'lib.js': 'export function f() { var inner; }\n' },
    ["a.js:1:10: 'inner' is not exported by ./lib.js"]],
  ['names in quotes', { 'a.js': "import { 'a b' as x, 'c d' as y } from './lib.js';\n", 'lib.js': "const q = 1;\nexport { q as 'a b' };\n" },
    ["a.js:1:22: 'c d' is not exported by ./lib.js"]],
  ['imports in a ring of modules are fine', { 'a.js': "import { b } from './b.js';\nexport const a = 1;\n", 'b.js': "import { a } from './a.js';\nexport const b = 2;\n" }, []],
  ['a module that imports itself', { 'a.js': "import { a as b, c } from './a.js';\nexport function a() {}\n" },
    ["a.js:1:18: 'c' is not exported by ./a.js"]],
];

const REEXPORTS = [
  ['a re-export that leads nowhere, and an import of it', {
    'a.js': "import { x } from './b.js';\n", 'b.js': "export { y as x } from './c.js';\n", 'c.js': 'export const z = 1;\n',
  }, ["a.js:1:10: 'y' is not exported by ./c.js", "b.js:1:10: 'y' is not exported by ./c.js"]],
  ['a re-export that nobody imports', { 'a.js': "export { nope } from './lib.js';\n", 'lib.js': LIB },
    ["a.js:1:10: 'nope' is not exported by ./lib.js (did you mean 'node'?)"]],
  ['an import that is exported is told once', { 'a.js': "import { nope } from './lib.js';\nexport { nope };\n", 'lib.js': LIB },
    ["a.js:1:10: 'nope' is not exported by ./lib.js (did you mean 'node'?)"]],
  ['stars pass on all names but default', { 'a.js': "import { node } from './b.js';\nimport read from './b.js';\n", 'b.js': "export * from './lib.js';\n", 'lib.js': LIB },
    ['a.js:2:8: ./b.js has no default export']],
  ['the nearest name may come by a star', { 'a.js': "import { nodes } from './b.js';\n", 'b.js': "export * from './lib.js';\n", 'lib.js': LIB },
    ["a.js:1:10: 'nodes' is not exported by ./b.js (did you mean 'node'?)"]],
  ['a star under a name', { 'a.js': "import { lib, node } from './b.js';\n", 'b.js': "export * as lib from './lib.js';\n", 'lib.js': LIB },
    ["a.js:1:15: 'node' is not exported by ./b.js"]],
  ['a name that leads only to itself', { 'a.js': "import { x } from './b.js';\n", 'b.js': "export { y as x } from './c.js';\n", 'c.js': "export { x as y } from './b.js';\n" },
    ["a.js:1:10: 'x' leads only to itself", "b.js:1:10: 'y' leads only to itself", "c.js:1:10: 'x' leads only to itself"]],
  ['stars in a ring are fine', { 'a.js': "import { b, c } from './b.js';\n", 'b.js': "export * from './c.js';\nexport const b = 1;\n", 'c.js': "export * from './b.js';\nexport const c = 1;\n" }, []],
  ['a name by two stars', {
    'a.js': "import { x } from './b.js';\n", 'b.js': "export * from './c.js';\nexport * from './d.js';\n", 'c.js': 'export const x = 1;\n', 'd.js': 'export const x = 2;\n',
  }, ["a.js:1:10: 'x' is ambiguous: ./c.js and ./d.js both export it"]],
  ['two stars to one thing', {
    'a.js': "import { x } from './b.js';\n", 'b.js': "export * from './c.js';\nexport * from './d.js';\n", 'c.js': 'export const x = 1;\n', 'd.js': "export { x } from './c.js';\n",
  }, []],
  ['an export of its own goes before stars', {
    'a.js': "import { x } from './b.js';\n", 'b.js': "export * from './c.js';\nexport const x = 3;\n", 'c.js': 'export const x = 1;\n',
  }, []],
  ['a name that may come from a star of an unknown module', { 'a.js': "import { x } from './b.js';\n", 'b.js': "export * from 'fs';\nexport const y = 1;\n" }, [], { notes: ['unknown x'] }],
  ['an export twice', { 'a.jsx': 'export const x = 1;\nconst y = 2;\nexport { y as x };\n' }, ["a.jsx:3:10: 'x' is exported twice"]],
  ['an export twice that the parser tells', { 'a.js': 'export const x = 1;\nexport { x };\n' }, ["a.js:2:10: Duplicate export 'x'"]],
  ['an export of an undeclared name', { 'a.jsx': 'export { x };\n' }, ["a.jsx:1:10: 'x' is exported by ./a.jsx, but 'x' is not declared there"]],
];

const PATHS = [
  ['a path that leads nowhere, and the nearest', { 'a.js': "import './lbi.js';\nimport './lbi';\nimport '../no/way.js';\n", 'lib.js': LIB },
    ["a.js:1:8: './lbi.js' leads to no file (did you mean './lib.js'?)", "a.js:2:8: './lbi' leads to no file (did you mean './lib'?)", "a.js:3:8: '../no/way.js' leads to no file"]],
  ['endings, folders with an index, folders with a package.json', {
    'src/a.js': "import { node } from './lib';\nimport './folder';\nimport './other';\nimport '.';\nimport '..';\n",
    'src/lib.mjs': LIB, 'src/folder/index.js': '', 'src/other/package.json': '{"main":"./x.js"}', 'src/other/x.js': '', 'src/index.js': '', 'index.js': '',
  }, []],
  ['a folder without an index', { 'a.js': "import './folder';\n", 'folder/x.js': '' }, ["a.js:1:8: './folder' leads to no file"]],
  ['import() and require() of texts', {
    'a.js': "export const f = () => import('./no.js');\nimport(`./${f}.js`);\nconst require = createRequire(import.meta.url);\nrequire('./gone');\nrequire('./lib.cjs');\n", 'lib.cjs': 'module.exports = 1;\n',
  }, ["a.js:1:31: './no.js' leads to no file", "a.js:4:9: './gone' leads to no file"]],
  ['what import() reaches is linked', { 'a.js': "import('./b.js');\n", 'b.js': "import { nope } from './lib.js';\n", 'lib.js': LIB },
    ["b.js:1:10: 'nope' is not exported by ./lib.js (did you mean 'node'?)"]],
  ['a function of its own called require', { 'a.js': "export function f(require) { require('./no.js'); }\n" }, []],
  ["Node's own modules", { 'a.js': "import fs, { readFile } from 'fs';\nimport { x } from 'node:path';\nimport 'fs/promises';\n" }, []],
  ['a package that is not installed', { 'a.js': "import React, { useState } from 'react';\nimport '@scope/name/sub';\n" }, [], { notes: ['absent react', 'absent @scope/name/sub'] }],
  ['the same, strictly', { 'a.js': "import React from 'react';\n" }, ["a.js:1:19: 'react' is not installed"], { strict: true, notes: ['absent react'] }],
  ['URLs, loaders and queries', { 'a.js': "import 'https://example.org/x.js';\nimport 'style!./x.css';\nimport raw from './lib.js?raw';\nimport 'data:text/javascript,1';\n", 'lib.js': LIB }, []],
  ['a URL of a file', { 'a.js': "import 'file:///no/such/file.js';\n" }, [], { notes: [] }],
  ['texts with halves of characters', { 'a.js': "import { x } from './\\ud800';\nimport { y } from '\\udc00é';\n" }, ["a.js:1:19: './\ufffdd800' leads to no file"], { notes: ['absent \ufffddc00é'] }],
  ['a text without sense', { 'a.js': "import '';\nimport './\\0';\nimport './';\n" },
    ["a.js:1:8: '' leads to no file", "a.js:2:8: './␀' leads to no file", "a.js:3:8: './' leads to no file"]],
];

const PACKAGES = [
  ['exports of a package', {
    'a.js': "import { x } from 'p';\nimport { y } from 'p/sub';\nimport { z } from 'p/deep/z.js';\nimport 'p/inner.js';\nimport { w } from 'p';\n",
    'node_modules/p/package.json': '{"name":"p","exports":{".":{"import":"./m.mjs","require":"./c.cjs"},"./sub":"./sub.mjs","./deep/*":"./deep/*"}}',
    'node_modules/p/m.mjs': 'export const x = 1;\n', 'node_modules/p/sub.mjs': 'export const y = 1;\n', 'node_modules/p/deep/z.js': 'export const z = 1;\n', 'node_modules/p/inner.js': '',
  }, ["a.js:4:8: 'p/inner.js' leads to no file of the package p by its `exports`", "a.js:5:10: 'w' is not exported by ./node_modules/p/m.mjs"]],
  ['module and main of a package', {
    'a.js': "import { x } from 'p';\nimport { y } from 'q';\n", 'node_modules/p/package.json': '{"module":"./m.js","main":"./c.js"}', 'node_modules/p/m.js': 'export const x = 1;\n',
    'node_modules/p/c.js': 'exports.x = 1;\n', 'node_modules/q/package.json': '{"main":"lib"}', 'node_modules/q/lib/index.js': 'exports.y = 1;\n',
  }, []],
  ['a package without the file that it names', { 'a.js': "import 'p';\n", 'node_modules/p/package.json': '{"main":"./dist/x.js"}' }, ["a.js:1:8: 'p' leads to no file of the package p"]],
  ['a package whose name ends like a file', { 'a.js': "import { x } from 'p.js';\n", 'node_modules/p.js/package.json': '{"main":"./m.mjs"}', 'node_modules/p.js/m.mjs': 'export const x = 1;\n' }, []],
  ['imports of the own package', {
    'a.js': "import { x } from '#lib';\nimport { y } from '#lib';\nimport '#no';\n", 'package.json': '{"imports":{"#lib":"./lib/x.js"}}', 'lib/x.js': 'export const x = 1;\n',
  }, ["a.js:2:10: 'y' is not exported by ./lib/x.js", "a.js:3:8: '#no' leads to no file: no `imports` of package.json lead to a file"]],
  ['the own package by its name', { 'a.js': "import { x } from 'own';\n", 'package.json': '{"name":"own","exports":"./lib.js"}', 'lib.js': 'export const y = 1;\n' },
    ["a.js:1:10: 'x' is not exported by ./lib.js"]],
  ['what stands in packages is told on asking', { 'a.js': "import 'p';\n", 'node_modules/p/index.js': "import './no.js';\nimport { x } from './index.js';\n" }, []],
  ['and then told', { 'a.js': "import 'p';\n", 'node_modules/p/index.js': "import './no.js';\n" }, ["node_modules/p/index.js:1:8: './no.js' leads to no file"], { packages: true }],
  ['a folder as an entry', { 'package.json': '{"module":"src/b.js"}', 'src/b.js': "import { nope } from '../lib.js';\n", 'lib.js': LIB },
    ["src/b.js:1:10: 'nope' is not exported by ./lib.js (did you mean 'node'?)"], { entries: ['.'] }],
];

const OTHERS = [
  ['JSON has a default export only', { 'a.js': "import data, { x } from './d.json';\nexport * from './d.json';\n", 'd.json': '{"x":1}' },
    ["a.js:1:16: 'x' is not exported by ./d.json: it has a default export only"]],
  ['style sheets and assets', { 'a.js': "import './s.css';\nimport styles, { red } from './s.module.scss';\nimport logo from './l.svg';\nimport './no.css';\n", 's.css': '', 's.module.scss': '', 'l.svg': '' },
    ["a.js:4:8: './no.css' leads to no file"]],
  ['CommonJS', { 'a.js': "import c, { anything } from './c.js';\nexport * from './c.js';\nimport d, { more } from './d.cjs';\n", 'c.js': "exports.anything = require('./no');\n", 'd.cjs': '' }, []],
  ['CommonJS as an entry', { 'a.cjs': "require('./no');\nimport('./lib.js');\n", 'lib.js': LIB }, ["a.cjs:1:9: './no' leads to no file"]],
  ['a plain script has a default export only', { 'a.js': "import './s.js';\nimport s, { x } from './s.js';\n", 's.js': 'var x = 1;\n' },
    ["a.js:2:13: 'x' is not exported by ./s.js: it has a default export only"]],
  ['the same in a package of modules', { 'a.js': "import s from './s.js';\n", 's.js': 'var x = 1;\n', 'package.json': '{"type":"module"}' }, ['a.js:1:8: ./s.js has no default export']],
  ['a module of await alone', { 'a.js': "import s from './s.js';\n", 's.js': 'await 1;\n' }, ['a.js:1:8: ./s.js has no default export']],
  ['a module that does not parse', { 'a.js': "import { x } from './b.js';\n", 'b.js': 'export const x = 1;\nlet x1 = = 2;\n' }, ['b.js:2:10: Unexpected token']],
  ['an entry that does not parse', { 'a.js': '\ufeff// é\nlet x = ;\n' }, ['a.js:2:9: Unexpected token']],
  ['a package that does not parse', { 'a.js': "import { x } from 'p';\n", 'node_modules/p/index.js': 'export const x = = 1;\n' }, []],
  ['an entry that is not there', { 'a.js': '' }, [], { entries: ['no.js'], faults: ['no.js: no such file'] }],
  ['a folder without an entry stands for all its files', { 'f/x.js': "import './no.js';\n", 'f/g/y.mjs': "import './nor.js';\n", 'f/node_modules/z.js': "import './none.js';\n" },
    ["f/g/y.mjs:1:8: './nor.js' leads to no file", "f/x.js:1:8: './no.js' leads to no file"], { entries: ['f'] }],
  ['a folder without source files', { 'f/x.css': '' }, [], { entries: ['f'], faults: ['f: a folder without source files'] }],
  ['an entry of another language', { 'a.css': '' }, [], { faults: ['a.css: no file of JavaScript or TypeScript'] }],
  ['two entries', { 'a.js': "import './no.js';\n", 'b.js': "import './nor.js';\n" }, ["a.js:1:8: './no.js' leads to no file", "b.js:1:8: './nor.js' leads to no file"], { entries: ['a.js', 'b.js', './a.js'] }],
  ['bytes that are no UTF-8', { 'a.js': "import { x } from './b.js';\n", 'b.js': Buffer.from([0x2f, 0x2f, 0xff, 0x0a]) }, ["a.js:1:19: './b.js' leads to ./b.js: not UTF-8 at byte 2"]],
];

const TYPES = "export interface Shape { area: number }\nexport type Id = string;\nexport enum Colour { Red }\nexport namespace N { export const inner = 1; }\nexport declare const given: Id;\nexport function f(a: string): void;\nexport function f(a: number): void;\nexport function f(a: any) {}\nexport abstract class C<T> {}\nexport default interface D {}\n";

const TYPED = [
  ['types are names as others are', {
    'a.ts': "import D, { Shape, Id, Colour, N, given, f, C, inner } from './t';\nimport type { Shape as S } from './t';\nimport { type Id as I, type Nope } from './t.js';\nexport type { Shape } from './t';\nexport type { Lost } from './t';\ntype Q = import('./no').X;\n",
    't.ts': TYPES,
  }, ["a.ts:1:48: 'inner' is not exported by ./t.ts", "a.ts:3:29: 'Nope' is not exported by ./t.ts", "a.ts:5:15: 'Lost' is not exported by ./t.ts", "a.ts:6:17: './no' leads to no file"]],
  ['what merges is no export twice', { 'a.ts': 'export interface A {}\nexport const A = 1;\nexport namespace A {}\nexport default function d() {}\nexport default interface d {}\n' }, []],
  ['a .js that means a .ts, .mjs a .mts, .jsx a .tsx', { 'a.ts': "import { x } from './x.js';\nimport { y } from './y.mjs';\nimport { z } from './z.jsx';\nimport { nope } from './x.js';\n", 'x.ts': 'export const x = 1;\n', 'y.mts': 'export const y = 1;\n', 'z.tsx': 'export const z = <a/>;\n' },
    ["a.ts:4:10: 'nope' is not exported by ./x.ts"]],
  ['JavaScript that imports TypeScript', { 'a.js': "import { x } from './x.js';\nimport { y } from './x';\n", 'x.ts': 'export const x: number = 1;\n' }, ["a.js:2:10: 'y' is not exported by ./x.ts"]],
  ['declarations', { 'a.ts': "import { a, b } from './d';\nimport e, { any } from './equals';\n", 'd.d.ts': 'declare const a: number;\nexport const b: number;\n', 'equals.d.ts': 'declare const e: { any: 1 };\nexport = e;\n' }, []],
  ['declarations with a list of exports', { 'a.ts': "import { a, b } from './d';\n", 'd.d.ts': 'declare const a: number;\ndeclare const b: number;\nexport { b };\n' }, ["a.ts:1:10: 'a' is not exported by ./d.d.ts"]],
  ['a module that another adds to', { 'a.ts': "import { Added } from './b';\ndeclare module './b' { interface Added {} }\n", 'b.ts': 'export const x = 1;\n' }, [], { notes: ['unknown Added'] }],
  ['import = and export import', { 'a.ts': "import x = require('./c');\nimport n = require('./no');\nexport import m = x.y;\n", 'c.ts': 'export = 1;\n' }, ["a.ts:2:20: './no' leads to no file"]],
  ['paths and baseUrl', {
    'src/a.ts': "import { x } from '@lib/x';\nimport { y } from '@lib/x';\nimport '@lib/no';\nimport { z } from 'other/z';\nimport { only } from 'exact';\nimport 'unknown';\n",
    'tsconfig.json': '{ // with comments\n "extends": "./base.json", }', 'base.json': '{"compilerOptions":{"baseUrl":".","paths":{"@lib/*":["no/*","lib/*"],"exact":["lib/only.ts"]}}}',
    'lib/x.ts': 'export const x = 1;\n', 'lib/only.ts': 'export const only = 1;\n', 'other/z.ts': 'export const z = 1;\n',
  }, ["src/a.ts:2:10: 'y' is not exported by ./lib/x.ts", "src/a.ts:3:8: '@lib/no' leads to no file: `@lib/*` in tsconfig.json leads to none"], { notes: ['absent unknown'] }],
  ['paths without baseUrl, and of a referred configuration', { 'src/a.ts': "import { x } from '~/x';\n", 'tsconfig.json': '{"files":[],"references":[{"path":"./app.json"}]}', 'app.json': '{"compilerOptions":{"paths":{"~/*":["./lib/*"]}}}', 'lib/x.ts': 'export const x = 1;\n' }, []],
  ['declarations of packages', {
    'a.ts': "import { T, x } from 'p';\nimport { U } from 'q';\nimport { V, W } from '@s/r';\n", 'node_modules/p/package.json': '{"types":"./p.d.ts","main":"./p.js"}', 'node_modules/p/p.d.ts': 'export type T = 1;\nexport const x: T;\n', 'node_modules/p/p.js': 'exports.x = 1;\n',
    'node_modules/q/package.json': '{"exports":{"import":"./q.mjs"}}', 'node_modules/q/q.mjs': 'export const u = 1;\n', 'node_modules/q/q.d.mts': 'export type U = 1;\nexport const u: U;\n',
    'node_modules/@s/r/index.js': 'export const v = 1;\n', 'node_modules/@types/s__r/index.d.ts': 'export type V = 1;\nexport const v: V;\n',
  }, ["a.ts:3:13: 'W' is not exported by ./node_modules/@types/s__r/index.d.ts"]],
  ['a default that TypeScript makes', { 'a.ts': "import p, { x, y } from 'p';\n", 'node_modules/p/index.d.ts': 'export const x: 1;\n' }, ["a.ts:1:16: 'y' is not exported by ./node_modules/p/index.d.ts"], { notes: ['unknown default'] }],
  ['types without a package', { 'a.ts': "import type { Node } from 'estree';\nimport { Gone } from 'estree';\n", 'node_modules/@types/estree/index.d.ts': 'export interface Node {}\n' }, ["a.ts:2:10: 'Gone' is not exported by ./node_modules/@types/estree/index.d.ts (did you mean 'Node'?)"]],
];

module.exports = { CASES: [...NAMES, ...REEXPORTS, ...PATHS, ...PACKAGES, ...OTHERS, ...TYPED] };
