#!/usr/bin/env node
'use strict';
// Tries `bolgwyr link` on small projects (test-link-cases.js), and the command on a few. BOLGWYR_PROGRAMS says where the programs stand.

const fs = require('fs');
const os = require('os');
const path = require('path');
const { spawnSync } = require('child_process');
const { linkSet } = require('./link/index.js');
const { FORMATS } = require('./link/formats.js');
const { CASES } = require('./test-link-cases.js');

function write(folder, files) {
  for (const [name, content] of Object.entries(files)) {
    const file = path.join(folder, name);
    fs.mkdirSync(path.dirname(file), { recursive: true });
    fs.writeFileSync(file, content);
  }
}

// Runs with a project in a folder of its own.
function within(files, run) {
  const folder = fs.mkdtempSync(path.join(fs.realpathSync(os.tmpdir()), 'link-'));
  try {
    write(folder, files);
    return run(folder);
  } finally {
    fs.rmSync(folder, { recursive: true, force: true });
  }
}

function answered(files, { entries = [Object.keys(files)[0]], strict, packages }) {
  return within(files, (cwd) => {
    const linked = linkSet(entries, { cwd, strict, packages });
    return {
      lines: FORMATS.unix(linked),
      faults: linked.set.faults.map(({ entry, message }) => `${entry}: ${message}`),
      notes: linked.notes.map(({ kind, name }) => `${kind} ${name}`),
    };
  });
}

function tryCase([what, files, lines, options = {}]) {
  const wanted = { lines, faults: options.faults || [], notes: options.notes || [] };
  const got = answered(files, options);
  const parts = Object.keys(wanted).filter((part) => JSON.stringify(got[part]) !== JSON.stringify(wanted[part]));
  return parts.map((part) => `${what}: ${part}\n  wanted ${JSON.stringify(wanted[part], null, 4)}\n  got ${JSON.stringify(got[part], null, 4)}`);
}

// The command itself: [what, files, words, status, standard output, standard error]. An output is whole, or a pattern.
const LIB = { 'a.js': "import { nope } from './lib.js';\nimport fs from 'fs';\n", 'lib.js': 'export const node = 1;\n' };
const COMMANDS = [
  ['findings for people', LIB, ['a.js'], 1, [
    "a.js:1:10: 'nope' is not exported by ./lib.js (did you mean 'node'?)",
    "  1 | import { nope } from './lib.js';",
    '    |          ^^^^',
    '2 modules, 2 imports, 1 finding', '',
  ].join('\n'), ''],
  ['the way of a ring', { 'a.js': "import { x } from './b.js';\n", 'b.js': "import { x } from './c.js';\nexport { x };\n", 'c.js': "export * from './b.js';\n" }, ['a.js'], 1, [
    "a.js:1:10: 'x' leads only to itself",
    "  1 | import { x } from './b.js';",
    '    |          ^',
    "  b.js:2:10: 'x' is 'x' of ./c.js",
    '  c.js:1:1: all names of ./b.js are passed on here',
    "b.js:1:10: 'x' leads only to itself",
    "  1 | import { x } from './c.js';",
    '    |          ^',
    '  c.js:1:1: all names of ./b.js are passed on here',
    "  b.js:2:10: 'x' is 'x' of ./c.js",
    '3 modules, 2 imports, 2 findings', '',
  ].join('\n'), ''],
  ['both ways of an ambiguity', { 'a.js': "import { x } from './b.js';\n", 'b.js': "export * from './c.js';\nexport * from './d.js';\n", 'c.js': 'export let x;\n', 'd.js': "export { y as x } from './e.js';\n", 'e.js': 'export let y;\n' }, ['a.js'], 1,
    /both export it\n.*\n.*\n {2}b\.js:1:1: all names of \.\/c\.js .*\n {2}c\.js:1:12: 'x' is exported here\n {2}b\.js:2:1: .*\n {2}d\.js:1:10: 'x' is 'y' of \.\/e\.js\n {2}e\.js:1:12: 'y' is exported here\n5 modules/, ''],
  ['one a line', LIB, ['--format', 'unix', 'a.js'], 1, "a.js:1:10: 'nope' is not exported by ./lib.js (did you mean 'node'?)\n", ''],
  ['an object', LIB, ['--format', 'json', 'a.js'], 1, /^\{"findings":\[\{"rule":"missing-export","file":"a\.js","line":1,"column":10,"endLine":1,"endColumn":14,"span":\{"start":9,"end":13\},"message":.*\}\n$/, ''],
  ['nothing found', { 'a.js': 'export {};' }, ['a.js'], 0, '1 module, 0 imports, 0 findings\n', ''],
  ['an entry that is not there', { 'a.js': '' }, ['no.js', 'a.js'], 3, /0 findings/, 'no.js: no such file\n'],
  ['no entry', {}, ['--strict'], 2, '', /missing required argument/],
  ['an unknown format', {}, ['--format', 'xml', 'a.js'], 2, '', /Allowed choices are pretty, unix, json/],
  ['a file that may not be read', { 'a.js': "import './b.js';\n", 'b.js': '' }, ['--format', 'unix', 'a.js'], 1, "a.js:1:8: './b.js' leads to ./b.js: may not be read\n", '', { forbidden: 'b.js' }],
  ['an entry that may not be read', { 'a.js': '' }, ['--format', 'unix', 'a.js'], 3, '', 'a.js: may not be read\n', { forbidden: 'a.js' }],
  ['a graph for dot', LIB, ['--graph', 'dot', 'a.js'], 0, /"a\.js" -> "lib\.js" \[label="nope"\];\n {2}"a\.js" -> "node:fs" \[label="default", style=dashed\];\n\}\n$/, ''],
  ['a graph for mermaid', LIB, ['--graph', 'mermaid', 'a.js'], 0, /n0 -->\|"nope"\| n1\n {2}n0 -\.->\|"default"\| n2\n/, ''],
  ['a graph for other programs', LIB, ['--graph', 'json', 'a.js'], 0, /"imports":\[\{"from":"a\.js","to":"lib\.js","names":\["nope"\],"external":false\},/, ''],
];

const BOLGWYR = path.join(__dirname, 'bolgwyr', 'main.js');

// Root may read all files: then the command runs as a user who may not.
const NOBODY = process.getuid() === 0 ? { uid: 65534, gid: 65534 } : {};

function runCommand(files, words, { forbidden }) {
  return within(files, (cwd) => {
    fs.chmodSync(cwd, 0o755);
    if (forbidden !== undefined) {
      fs.chmodSync(path.join(cwd, forbidden), 0);
    }
    return spawnSync(process.execPath, [BOLGWYR, 'link', ...words], { cwd, encoding: 'utf8', ...(forbidden !== undefined && NOBODY) });
  });
}

const fits = (text, wanted) => (wanted instanceof RegExp ? wanted.test(text) : text === wanted);

function tryCommand([what, files, words, status, stdout, stderr, options = {}]) {
  const run = runCommand(files, words, options);
  const isRight = run.status === status && fits(run.stdout, stdout) && fits(run.stderr, stderr);
  return isRight ? [] : [`${what}: status ${run.status}\n${run.stdout}${run.stderr}`];
}

function main() {
  const faults = [...CASES.flatMap((one) => tryCase(one)), ...COMMANDS.flatMap((one) => tryCommand(one))];
  faults.forEach((fault) => console.log(fault));
  console.log(`${CASES.length + COMMANDS.length} cases, ${faults.length} failed`);
  process.exitCode = faults.length === 0 ? 0 : 1;
}

main();
