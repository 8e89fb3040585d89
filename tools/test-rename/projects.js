'use strict';
// Renamings across modules: the files, the place and the new name, the entries (else the file `app`), and the files that change or the
// refusal.

module.exports = [
  {
    name: 'a declaration and its importers',
    files: {
      'a.mjs': 'export function area(r) { return area(r); }\n',
      'app.mjs': "import { area } from './a.mjs';\nimport { area as other } from './a.mjs';\nf({ area, other });\n",
    },
    rename: ['a.mjs', 'area', 'surface'],
    wanted: {
      'a.mjs': 'export function surface(r) { return surface(r); }\n',
      'app.mjs': "import { surface } from './a.mjs';\nimport { surface as other } from './a.mjs';\nf({ area: surface, other });\n",
    },
  },
  {
    name: 'a list, names that are passed on, all names of a module',
    files: {
      'a.mjs': 'let one = 1, two = 2;\nexport { one, one as uno, two };\n',
      'b.mjs': "export { one, one as eins } from './a.mjs';\n",
      'c.mjs': "export * from './b.mjs';\nimport { one } from './b.mjs';\nexport { one as last };\n",
      'app.mjs': "import { one, uno, eins, last } from './c.mjs';\nimport * as all from './c.mjs';\nall.eins + one;\n",
    },
    rename: ['a.mjs', 'one', 'first'],
    wanted: {
      'a.mjs': 'let first = 1, two = 2;\nexport { first, first as uno, two };\n',
      'b.mjs': "export { first, first as eins } from './a.mjs';\n",
      'c.mjs': "export * from './b.mjs';\nimport { first } from './b.mjs';\nexport { first as last };\n",
      'app.mjs': "import { first, uno, eins, last } from './c.mjs';\nimport * as all from './c.mjs';\nall.eins + first;\n",
    },
  },
  {
    name: 'an import that is exported again',
    files: {
      'a.mjs': 'export const { one, list: [two] } = f(), three = () => two;\n',
      'b.mjs': "import { two } from './a.mjs';\nexport { two };\n",
      'app.mjs': "import { two as second } from './b.mjs';\nsecond;\n",
    },
    rename: ['a.mjs', 'two', 'deux'],
    wanted: {
      'a.mjs': 'export const { one, list: [deux] } = f(), three = () => deux;\n',
      'b.mjs': "import { deux } from './a.mjs';\nexport { deux };\n",
      'app.mjs': "import { deux as second } from './b.mjs';\nsecond;\n",
    },
  },
  {
    name: 'types and overloads',
    files: {
      'a.ts': 'export interface Shape { a: Shape }\nexport function f(a: string): void;\nexport function f(a: any) {}\n',
      'app.ts': "import type { Shape } from './a';\nimport { f } from './a';\nlet s: Shape = f(s);\n",
    },
    rename: ['a.ts', 'f', 'g'],
    wanted: {
      'a.ts': 'export interface Shape { a: Shape }\nexport function g(a: string): void;\nexport function g(a: any) {}\n',
      'app.ts': "import type { Shape } from './a';\nimport { g } from './a';\nlet s: Shape = g(s);\n",
    },
  },
  {
    name: 'a type alone',
    files: {
      'a.ts': 'export interface Shape { a: Shape }\n',
      'app.ts': "import type { Shape } from './a';\nexport type { Shape } from './a';\nlet s: Shape;\n",
    },
    rename: ['a.ts', 'Shape', 'Form'],
    wanted: {
      'a.ts': 'export interface Form { a: Form }\n',
      'app.ts': "import type { Form } from './a';\nexport type { Form } from './a';\nlet s: Form;\n",
    },
  },
  {
    name: 'what is not exported under its name',
    files: { 'a.mjs': 'let one;\nexport { one as uno };\n', 'app.mjs': "import { uno } from './a.mjs';\nuno;\n" },
    rename: ['a.mjs', 'one', 'first'],
    wanted: { 'a.mjs': 'let first;\nexport { first as uno };\n' },
  },
  {
    name: 'a name that an importer has already',
    files: { 'a.mjs': 'export let one;\n', 'app.mjs': "import { one } from './a.mjs';\nlet first;\none;\n" },
    rename: ['a.mjs', 'one', 'first'],
    refused: 'app.mjs:2:5: `first` here and at 1:10 would be one variable',
  },
  {
    name: 'a name that a module exports already',
    files: { 'a.mjs': 'export let one;\nlet x;\nexport { x as first };\n', 'app.mjs': "import './a.mjs';\n" },
    rename: ['a.mjs', 'one', 'first'],
    refused: 'a.mjs:3:10: this module exports `first` already',
  },
  {
    name: 'a name that a module passes on already',
    files: {
      'a.mjs': 'export let one;\n', 'z.mjs': 'export let first;\n',
      'b.mjs': "export * from './a.mjs';\nexport * from './z.mjs';\n", 'app.mjs': "import { first } from './b.mjs';\nfirst;\n",
    },
    rename: ['a.mjs', 'one', 'first'],
    refused: 'b.mjs:1:1: this module exports `first` already',
  },
  {
    name: 'a property of a namespace',
    files: { 'a.mjs': 'export let one;\n', 'app.mjs': "import * as all from './a.mjs';\nall.two;\nall.one;\n" },
    rename: ['a.mjs', 'one', 'first'],
    refused: 'app.mjs:3:1: `all.one` here is a property of a namespace, which isn\'t renamed',
  },
  {
    name: 'a namespace that goes elsewhere',
    files: { 'a.mjs': 'export let one;\n', 'app.mjs': "import * as all from './a.mjs';\nf(all);\n" },
    rename: ['a.mjs', 'one', 'first'],
    refused: "app.mjs:2:3: what is used of the namespace `all` here isn't known",
  },
  {
    name: 'a module that is loaded later',
    files: { 'a.mjs': 'export let one;\n', 'app.mjs': "import('./a.mjs');\n" },
    rename: ['a.mjs', 'one', 'first'],
    refused: "app.mjs:1:8: what is used of this module isn't known, and it exports `one`",
  },
  {
    name: 'an imported name',
    files: { 'a.mjs': 'export let one;\n', 'app.mjs': "import { one } from './a.mjs';\none;\n" },
    rename: ['app.mjs', 'one', 'first'],
    refused: 'app.mjs:1:10: `one` is imported: name the place where it is declared',
  },
  {
    name: 'a module that nothing reaches',
    files: { 'a.mjs': 'export let one;\n', 'app.mjs': 'export {};\n' },
    rename: ['a.mjs', 'one', 'first'],
    refused: "a.mjs: the entries don't reach this file",
  },
  {
    name: 'a file of a package',
    files: { 'a.mjs': "export let one;\n", 'node_modules/p/index.mjs': "import { one } from '../../a.mjs';\none;\n", 'app.mjs': "import './a.mjs';\nimport './node_modules/p/index.mjs';\n" },
    rename: ['a.mjs', 'one', 'first'],
    refused: 'node_modules/p/index.mjs:1:10: this file is of a package',
  },
  {
    name: 'a folder is all its files: a test that nothing imports, and what package.json names',
    files: {
      'package.json': '{ "type": "module", "main": "src/index.js" }',
      'src/index.js': "export { one } from './a.js';\n",
      'src/a.js': 'export let one;\n',
      'test/a.js': "import { one } from '../src/a.js';\none;\n",
      'node_modules/p/index.js': 'let = =;\n',
    },
    rename: ['src/a.js', 'one', 'first'],
    entries: ['.'],
    wanted: {
      'src/a.js': 'export let first;\n',
      'src/index.js': "export { first } from './a.js';\n",
      'test/a.js': "import { first } from '../src/a.js';\nfirst;\n",
    },
  },
  {
    name: 'a file of a folder that no parser reads and that has not the name',
    files: { 'a.mjs': 'export let one;\n', 'b.mjs': "import { one } from './a.mjs';\n", 'broken.mjs': 'let two = = 1;\n' },
    rename: ['a.mjs', 'one', 'first'],
    entries: ['.'],
    wanted: { 'a.mjs': 'export let first;\n', 'b.mjs': "import { first } from './a.mjs';\n" },
  },
  {
    name: 'one that has it',
    files: { 'a.mjs': 'export let one;\n', 'broken.mjs': "import { one } from './a.mjs';\nlet two = = 1;\n" },
    rename: ['a.mjs', 'one', 'first'],
    entries: ['.'],
    refused: 'broken.mjs: Unexpected token',
  },
  {
    name: 'a file of CommonJS in a folder',
    files: { 'a.mjs': 'export let one;\n', 'common.cjs': "const { one } = require('./a.mjs');\n" },
    rename: ['a.mjs', 'one', 'first'],
    entries: ['.'],
    refused: "common.cjs:1:25: what is used of this module isn't known, and it exports `one`",
  },
];
