#!/usr/bin/env node
'use strict';
// Processor time of the tree of a file of 11,000 lines after a change of one name, as a whole and anew only where it changed, and of
// a fixed loop, in turn; the middle and the least of all rounds in milliseconds.
// usage: bench/changing.js [ROUNDS [ENDING]]      (ENDING is that of a file's name, `mjs` or, for TypeScript, `mts`)

const path = require('path');
const { execFileSync } = require('child_process');
const { ChangingTree } = require('../tools/source-to-tree/pieces/tree');
const { treeOf } = require('../tools/source-to-tree/convert');

const SOURCE = path.join(__dirname, '..', 'tools', 'analyse', 'test', 'long-source.js');
const STEPS = 30_000_000;
const WARMING = 4; // rounds that don't count

function loop() {
  let value = 0;
  for (let step = 0; step < STEPS; step += 1) value = (Math.imul(31, value) + step) | 0;
  return value;
}

function processorTime(call) {
  const before = process.cpuUsage();
  call();
  const { user, system } = process.cpuUsage(before);
  return (user + system) / 1000;
}

function main([rounds = 15, ending = 'mjs']) {
  const text = execFileSync(process.execPath, [SOURCE], { encoding: 'utf8', maxBuffer: Infinity });
  const options = { filename: `long.${ending}` };
  const changing = new ChangingTree();
  const times = { loop: [], whole: [], changed: [] };
  for (let round = 0; round < Number(rounds) + WARMING; round += 1) {
    const changed = text.replace('function work250(', `function work250${'x'.repeat(round % 6)}(`);
    times.loop.push(processorTime(loop));
    times.whole.push(processorTime(() => treeOf(changed, options)));
    times.changed.push(processorTime(() => changing.treeOf(changed, options)));
  }
  for (const [what, all] of Object.entries(times)) {
    const sorted = all.slice(WARMING).sort((one, other) => one - other);
    console.log(`${what}: ${sorted[sorted.length >> 1].toFixed(1)}, least ${sorted[0].toFixed(1)}`);
  }
}

main(process.argv.slice(2));
