#!/usr/bin/env node
'use strict';
// How long after the last of some keys bolgwyr lsp says what it finds in a file of ten thousand lines, and answers a hover: in
// milliseconds by the clock, and the processor time of the server with the programs that it runs. Other work on the machine counts in
// the first and not in the second. A fixed loop between the rounds tells how fast the machine is meanwhile, by the same two measures.
// usage: latency.js [--rounds N] [--within MILLISECONDS] [--used] [--lines N] [--typescript]
// (status 1 where the median of the clock's is more)

const fs = require('fs');
const os = require('os');
const path = require('path');
const { execFileSync } = require('child_process');
const { pathToFileURL } = require('url');
const { load } = require('../source-to-tree/load.js');
const { Client } = require('./client.js');

const { Command } = load('commander');

const SOURCE = path.join(__dirname, '..', 'analyse', 'test', 'long-source.js');
const PLACE = pathToFileURL(path.join(os.tmpdir(), 'long')).href; // no such file is read
const KEYS = 'fresh';
const BETWEEN_KEYS = 60; // milliseconds
const TICK = 1000 / Number(execFileSync('getconf', ['CLK_TCK'], { encoding: 'utf8' }));

const STEPS = 30_000_000;
const WARMING = 4; // loops until the code is compiled

function loop() {
  let value = 0;
  for (let step = 0; step < STEPS; step += 1) {
    value = (Math.imul(31, value) + step) | 0;
  }
  return value;
}

// The time that the loop takes, by the clock and of the processor, in milliseconds.
function measureLoop() {
  const [started, before] = [performance.now(), process.cpuUsage()];
  loop();
  const { user, system } = process.cpuUsage(before);
  return { clock: performance.now() - started, processor: (user + system) / 1000 };
}

const sleep = (time) => new Promise((resolve) => setTimeout(resolve, time));

// What the system tells of a process: its parent, and the ticks that it and its ended children took; null where it has ended.
function statOf(id) {
  try {
    const text = fs.readFileSync(`/proc/${id}/stat`, 'utf8');
    const fields = text.slice(text.lastIndexOf(')') + 2).split(' ').map(Number);
    return { id, parent: fields[1], ticks: fields.slice(11, 15).reduce((sum, ticks) => sum + ticks, 0) };
  } catch {
    return null;
  }
}

// The processor time of a process and all below it, in milliseconds.
function processorTime(root) {
  const stats = fs.readdirSync('/proc').filter((name) => /^\d+$/.test(name)).map((name) => statOf(Number(name))).filter(Boolean);
  const below = new Set([root]);
  stats.sort((left, right) => left.id - right.id).forEach(({ id, parent }) => below.has(parent) && below.add(id));
  return TICK * stats.filter(({ id }) => below.has(id)).reduce((sum, { ticks }) => sum + ticks, 0);
}

// Where the keys are pressed: behind the name of a function in the middle.
function placeIn(text) {
  const lines = text.split('\n');
  const heads = [...lines.keys()].filter((at) => /function work\d+\(/.test(lines[at]));
  const line = heads[heads.length >> 1];
  return { line, character: lines[line].indexOf('(') };
}

const change = ({ client, uri }, version, range, text) => client.notify('textDocument/didChange', {
  textDocument: { uri, version }, contentChanges: [{ range, text }],
});

// The first parts of the text, of so many lines at most.
function shortened(text, lines) {
  const parts = text.split(/(?=\n\/\/ part )/);
  let left = lines;
  const end = parts.findIndex((part) => {
    left -= part.split('\n').length - 1;
    return left < 0;
  });
  return (end === -1 ? parts : parts.slice(0, end)).join('');
}

// One round: keys, and the times until what is found is told; then the letters are taken away again.
async function round(edited, place, first) {
  const { client, uri } = edited;
  let version = first;
  for (const [at, key] of [...KEYS].entries()) {
    await sleep(BETWEEN_KEYS);
    version += 1;
    const here = { ...place, character: place.character + at };
    change(edited, version, { start: here, end: here }, key);
  }
  const [started, processor] = [performance.now(), processorTime(client.child.pid)];
  await client.diagnosticsOf(uri, version);
  const told = performance.now() - started;
  const spent = processorTime(client.child.pid) - processor;
  change(edited, version + 1, { start: place, end: { ...place, character: place.character + KEYS.length } }, '');
  const asked = performance.now();
  await client.request('textDocument/hover', { textDocument: { uri }, position: place });
  const answered = performance.now() - asked;
  await client.diagnosticsOf(uri, version + 1);
  client.messages.length = 0;
  return { told, spent, answered };
}

function inWords(what, values) {
  const sorted = [...values].sort((left, right) => left - right).map(Math.round);
  return `${what}: median ${sorted[sorted.length >> 1]} ms, least ${sorted[0]}, greatest ${sorted[sorted.length - 1]}`;
}

const medianOf = (values) => [...values].sort((left, right) => left - right)[values.length >> 1];

// How many times as long as the loop, in the middle.
function inLoops(what, pairs) {
  return `${what}: ${medianOf(pairs.map(([time, loop]) => time / loop)).toFixed(1)} times as long`;
}

function tell(counted) {
  console.log(inWords('from the last key until the findings are told, by the clock', counted.map(({ told }) => told)));
  console.log(inWords('processor time of that', counted.map(({ spent }) => spent)));
  console.log(inWords('a hover right behind a key, by the clock', counted.map(({ answered }) => answered)));
  console.log(inWords(`a loop of ${STEPS} steps, by the clock`, counted.map(({ loop: { clock } }) => clock)));
  console.log(inLoops('the findings against the loop, by the clock', counted.map((one) => [one.told, one.loop.clock])));
  console.log(inLoops('the same in processor time', counted.map((one) => [one.spent, one.loop.processor])));
}

async function main() {
  const program = new Command('latency')
    .option('--rounds <number>', 'how many times', Number, 15)
    .option('--within <milliseconds>', 'how long it may take by the clock', Number, Infinity)
    .option('--used', 'a file with twenty findings in place of 3,500')
    .option('--lines <number>', 'the first parts of the file, of so many lines at most', Number, Infinity)
    .option('--typescript', 'the same text as TypeScript')
    .parse();
  const { rounds, within, used, lines, typescript } = program.opts();
  const whole = execFileSync(process.execPath, [SOURCE, ...(used ? ['--used'] : [])], { encoding: 'utf8', maxBuffer: Infinity });
  const text = shortened(whole, lines);
  const uri = `${PLACE}.${typescript ? 'mts' : 'mjs'}`;
  const client = new Client();
  await client.request('initialize', { capabilities: {} });
  client.notify('initialized', {});
  client.open(uri, text);
  const { params: { diagnostics } } = await client.diagnosticsOf(uri, 1);
  Array.from({ length: WARMING }, loop);
  const found = [];
  for (let at = 0; at <= rounds; at += 1) {
    const measured = measureLoop();
    found.push({ ...await round({ client, uri }, placeIn(text), 1 + at * (KEYS.length + 1)), loop: measured });
  }
  await client.end();
  const counted = found.slice(1); // the first is for the code to be compiled
  console.log(`${text.split('\n').length} lines, ${diagnostics.length} findings, ${rounds} rounds of ${KEYS.length} keys`);
  tell(counted);
  process.exitCode = medianOf(counted.map(({ told }) => told)) > within ? 1 : 0;
}

main();
