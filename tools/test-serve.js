#!/usr/bin/env node
'use strict';
// Tries that requests which stand one behind the other are answered as each tool's own run answers, how such a run ends, and what
// those who ask get where a program ends in the midst.
// usage: test-serve.js

const fs = require('fs');
const os = require('os');
const path = require('path');
const { spawnSync } = require('child_process');
const { programPath, programsFor } = require('./programs/index.js');
const { Pool } = require('./programs/pool.js');
const { Served } = require('./programs/served.js');

const LENGTH_BYTES = 8;
const sample = (name) => fs.readFileSync(path.join(__dirname, '..', 'samples', name));

function lengths(...numbers) {
  const bytes = Buffer.alloc(LENGTH_BYTES * numbers.length);
  numbers.forEach((number, at) => bytes.writeBigUInt64LE(BigInt(number), at * LENGTH_BYTES));
  return bytes;
}

function request(words, input) {
  const text = Buffer.isBuffer(words) ? words : Buffer.from(words.map((word) => `${word}\n`).join(''));
  return Buffer.concat([lengths(text.length, input.length), text, input]);
}

// The answers that stand one behind the other in some bytes.
function answersIn(bytes) {
  const answers = [];
  let at = 0;
  while (at < bytes.length) {
    const number = (place) => Number(bytes.readBigUInt64LE(at + place * LENGTH_BYTES));
    const [status, out, errs] = [number(0), number(1), number(2)];
    const begin = at + 3 * LENGTH_BYTES;
    answers.push({ status, out: bytes.toString('utf8', begin, begin + out), errs: bytes.toString('utf8', begin + out, begin + out + errs) });
    at = begin + out + errs;
  }
  return answers;
}

const serve = (input) => spawnSync(programPath('tools_main'), ['serve'], { input, maxBuffer: Infinity });

function direct(words, input) {
  const run = spawnSync(programPath('tools_main'), words, { input, maxBuffer: Infinity });
  return { status: run.status, out: run.stdout.toString(), errs: run.stderr.toString() };
}

let passed = 0;
let failed = 0;

function expect(what, wanted, found) {
  if (JSON.stringify(wanted) === JSON.stringify(found)) {
    passed += 1;
    return;
  }
  failed += 1;
  console.log(`FAILED: ${what}\n  wanted: ${JSON.stringify(wanted)}\n  found:  ${JSON.stringify(found)}`);
}

// Each is answered as the tool answers when it runs alone.
const REQUESTS = [
  [['report'], sample('function.json')],
  [['report', '--check', '--nodes'], sample('assignment.json')],
  [['report', '--what'], sample('function.json')],
  [['report'], Buffer.from('{')],
  [['renamer', '2', 'c'], sample('function.json')],
  [['renamer', '9', 'c'], sample('function.json')],
  [['mangler', '--toplevel'], sample('function.json')],
  [['name_lint', 'b'], sample('names.json')],
  [['tangled_names'], sample('tangled.json')],
  [['file_check', 'b'], sample('names.json')],
  [['module_linker'], sample('modules.json')],
  [['report'], Buffer.alloc(0)],
];

const all = serve(Buffer.concat(REQUESTS.map(([words, input]) => request(words, input))));
expect('the status of a run whose input ends well', [0, ''], [all.status, all.stderr.toString()]);
const answers = answersIn(all.stdout);
expect('an answer for each request', REQUESTS.length, answers.length);
REQUESTS.forEach(([words, input], at) => expect(words.join(' '), direct(words, input), answers[at]));

const unknown = answersIn(serve(request(['nothing'], Buffer.alloc(0))).stdout);
expect('a tool that there is not', [2, ''], [unknown[0].status, unknown[0].out]);
expect('no words', 2, answersIn(serve(request([], Buffer.alloc(0))).stdout)[0].status);
expect('no requests', [0, 0], [serve('').status, serve('').stdout.length]);

// What ends a run, behind one request that is answered.
const good = request(['report'], sample('empty.json'));
const ENDS = [
  ['an input that ends within a length', Buffer.from([1, 0]), 3, 'requests: the input ends within one\n'],
  ['an input that ends within the words', Buffer.concat([lengths(9, 0), Buffer.from('rep')]), 3, 'requests: the input ends within one\n'],
  ['words that are no text', request(Buffer.from([0xff]), Buffer.alloc(0)), 3, 'requests: words that are no text\n'],
  ['a request that is too long', Buffer.concat([lengths(6, 67108865), Buffer.from('report')]), 4, 'requests: too long\n'],
];
for (const [what, bytes, status, line] of ENDS) {
  const run = serve(Buffer.concat([good, bytes]));
  expect(what, [status, line, 1], [run.status, run.stderr.toString(), answersIn(run.stdout).length]);
}

// A program that answers as many requests as its name says, and then ends as told. It answers each with the words, in two pieces.
const STAND_IN = (answers, end) => `#!${process.execPath}
const { readSync, writeSync } = require('fs');
function take(length) {
  const bytes = Buffer.alloc(length);
  for (let at = 0; at < length;) {
    const read = readSync(0, bytes, at, length - at);
    if (read === 0) process.exit(0);
    at += read;
  }
  return bytes;
}
for (let left = ${answers}; ; left -= 1) {
  const head = take(16);
  const words = take(head.readUInt32LE(0));
  take(head.readUInt32LE(8));
  if (left === 0) { ${end} }
  const answer = Buffer.alloc(24);
  answer.writeUInt32LE(1, 0);
  answer.writeUInt32LE(words.length, 8);
  writeSync(1, answer.subarray(0, 10));
  writeSync(1, Buffer.concat([answer.subarray(10), words]));
}
`;

// How programs end that answer a request or none: what four requests get.
const STAND_INS = [
  ['that answers all', STAND_IN(9, ''), ['1 a', '1 b', '1 c', '1 d']],
  ['that a signal ends at each second request', STAND_IN(1, 'process.kill(process.pid, "SIGKILL"); for (;;);'), ['1 a', 'SIGKILL', '1 c', 'SIGKILL']],
  ['that ends with a status at each request', STAND_IN(0, 'writeSync(2, "out of memory\\n"); process.exit(7);'), ['7 out of memory', '7 out of memory', '7 out of memory', '7 out of memory']],
  ['that ends well without an answer', STAND_IN(1, 'process.exit(0);'), ['1 a', 'ended without an answer', '1 c', 'ended without an answer']],
  ['that writes half of an answer', STAND_IN(0, 'writeSync(1, Buffer.alloc(9)); process.exit(6);'), ['6 ', '6 ', '6 ', '6 ']],
];

async function told(run) {
  try {
    const { status, signal, stdout, stderr } = await run;
    return signal ?? `${status} ${stdout}${stderr}`.trim();
  } catch (error) {
    return error.message.replace(/^\S+ /, '');
  }
}

async function tryStandIns(folder) {
  for (const [place, [what, script, wanted]] of STAND_INS.entries()) {
    const program = path.join(folder, String(place));
    fs.writeFileSync(program, script, { mode: 0o755 });
    const served = new Served(program);
    const found = await Promise.all(['a', 'b', 'c', 'd'].map((word) => told(served.run([word], Buffer.alloc(300_000)))));
    expect(`a program ${what}`, wanted.map((one) => one.trim()), found);
    served.close();
  }
  const missing = new Served(path.join(folder, 'none'));
  expect('a program that there is not', true, (await told(missing.run(['a'], Buffer.alloc(0)))).startsWith("can't be run"));
}

// What is dropped has no answer, and what is asked behind it has one: of another program, since the one that was at work is ended.
async function tryDropping(folder) {
  const program = path.join(folder, 'dropping');
  fs.writeFileSync(program, STAND_IN(9, ''), { mode: 0o755 });
  const served = new Served(program);
  const ask = (word) => told(served.run([word], Buffer.alloc(300_000)));
  const dropped = [ask('a'), ask('b')];
  const first = served.child;
  served.abandon();
  expect('what is dropped', ['wants the answer any more', 'wants the answer any more'], await Promise.all(dropped));
  expect('what is asked behind it', '1 c', await ask('c'));
  const second = served.child;
  served.abandon();
  expect('what is asked where nothing was dropped', '1 d', await ask('d'));
  expect('the programs that answered', [false, true], [first === second, second === served.child]);
  served.close();
}

// How a program is to take its memory, by its first input, and by what the caller said of it.
const LARGE = Buffer.alloc(1 << 22);
const MEMORY = [
  ['a small tree', LARGE.subarray(1), undefined, ''],
  ['a large tree', LARGE, undefined, 'glibc.malloc.hugetlb=1'],
  ['a large tree, as the caller wants it', LARGE, 'glibc.malloc.arena_max=1', 'glibc.malloc.arena_max=1'],
];

async function tryMemory(folder) {
  const program = path.join(folder, 'memory');
  fs.writeFileSync(program, '#!/bin/sh\nprintf %s "$GLIBC_TUNABLES" >"$0.told"\n', { mode: 0o755 });
  const before = process.env.GLIBC_TUNABLES;
  for (const [what, input, said, wanted] of MEMORY) {
    setTunables(said);
    const served = new Served(program);
    await told(served.run(['a'], input));
    expect(`the memory of a program with ${what}`, wanted, fs.readFileSync(`${program}.told`, 'utf8'));
  }
  setTunables(before);
}

function setTunables(said) {
  if (said === undefined) {
    delete process.env.GLIBC_TUNABLES;
  } else {
    process.env.GLIBC_TUNABLES = said;
  }
}

// Many requests at once, of one tool and of several, are each answered as when they stand alone.
async function tryPool(enough) {
  const pool = new Pool({ size: 3, programs: programsFor(['report', 'name_lint']), enough });
  const words = { report: ['--check'], name_lint: [] };
  const inputs = ['function.json', 'names.json', 'tangled.json', 'assignment.json'].map(sample);
  const runAll = (input) => Promise.all(Object.keys(words).map((tool) => pool.run(tool, words[tool], input)));
  const runs = await Promise.all([...inputs, ...inputs, ...inputs].map(runAll));
  pool.close();
  runs.forEach((pair, at) => Object.keys(words).forEach((tool, place) => {
    const { status, stdout, stderr } = pair[place];
    expect(`${tool} of many`, direct([tool, ...words[tool]], inputs[at % inputs.length]), { status, out: stdout.toString(), errs: stderr });
  }));
}

async function main() {
  const folder = fs.mkdtempSync(path.join(os.tmpdir(), 'bolgwyr-test-'));
  try {
    await tryStandIns(folder);
    await tryDropping(folder);
    await tryMemory(folder);
    await tryPool(3);
    await tryPool(1);
  } finally {
    fs.rmSync(folder, { recursive: true, force: true });
  }
  console.log(`${passed} passed, ${failed} failed`);
  process.exitCode = failed === 0 ? 0 : 1;
}

main();
