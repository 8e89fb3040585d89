#!/usr/bin/env node
'use strict';
// Renames random symbols of real files to random names: each renaming is refused with a place, or eslint-scope (TypeScript's language
// service for TypeScript) ties the names of both texts alike, and renaming back gives the first text where nothing was written out.
// With --page what a page foresees is compared with what the command says.

const { load } = require('./source-to-tree/load.js');
const { RunFault } = require('./bolgwyr/faults.js');
const { textOf } = require('./rename/files.js');
const { analysed } = require('./rename/analysed.js');
const { filesBelow } = require('./judge-rename/sources.js');
const { judge } = require('./judge-rename/judge.js');
const { judgePage } = require('./judge-rename/page.js');
const { randomFrom, shuffled } = require('./judge-rename/random.js');
const { randomName } = require('./judge-rename/names.js');

const { Command } = load('commander');

const say = (line) => process.stdout.write(`${line}\n`);

class Tally {
  constructor() {
    this.counts = { renamings: 0, done: 0, refused: 0, same: 0, wrong: 0, 'second opinions': 0, files: 0, 'files not read': 0 };
    this.reasons = new Map();
  }

  add({ outcome, second, reason, wrong }) {
    this.counts.renamings += 1;
    this.counts[outcome] += 1;
    this.counts['second opinions'] += second ? 1 : 0;
    this.counts.wrong += wrong === null ? 0 : 1;
    if (reason !== undefined) {
      const kind = reason.replace(/`[^`]*`/g, '`..`').replace(/\d+:\d+/g, 'L:C');
      this.reasons.set(kind, (this.reasons.get(kind) || 0) + 1);
    }
  }

  show() {
    say(Object.entries(this.counts).map(([what, count]) => `${what} ${count}`).join(', '));
    const byCount = [...this.reasons].sort((a, b) => b[1] - a[1]);
    byCount.forEach(([reason, count]) => say(`  ${count} refused: ${reason}`));
  }
}

function analysisOf(file, tally) {
  try {
    tally.counts.files += 1;
    return analysed(textOf(file), { filename: file });
  } catch (error) {
    if (!(error instanceof RunFault)) {
      throw error;
    }
    tally.counts['files not read'] += 1;
    return null;
  }
}

function judgeFile(file, { each, left, random, tally, judged }) {
  const analysis = analysisOf(file, tally);
  if (analysis === null || analysis.report.symbols.length === 0) {
    return;
  }
  for (let time = 0; time < Math.min(each, left); time += 1) {
    const symbol = analysis.report.symbols[random(analysis.report.symbols.length)];
    const { name } = randomName(analysis, random);
    const found = judged(analysis, symbol, name);
    tally.add(found);
    if (found.wrong !== null) {
      const { line, column } = analysis.positions.placeOf(symbol.span.start);
      say(`WRONG ${file}:${line}:${column} ${symbol.name} -> ${name}: ${found.wrong}`);
    }
  }
}

function main() {
  const program = new Command('judge-rename')
    .argument('<folders...>', 'folders or files')
    .option('--count <number>', 'how many renamings', Number, 200)
    .option('--each <number>', 'how many in each file', Number, 8)
    .option('--largest <bytes>', 'files that are larger are left out', Number, 400000)
    .option('--seed <number>', 'decides files, symbols and names', Number, 1)
    .option('--page', 'what a page foresees')
    .parse();
  const { count, each, largest, seed, page } = program.opts();
  const judged = page ? judgePage : judge;
  const random = randomFrom(seed);
  const tally = new Tally();
  const files = shuffled(program.args.flatMap((folder) => filesBelow(folder, largest)), random);
  for (const file of files) {
    const left = count - tally.counts.renamings;
    if (left <= 0) {
      break;
    }
    judgeFile(file, { each, left, random, tally, judged });
  }
  tally.show();
  return tally.counts.wrong === 0 ? 0 : 1;
}

process.exitCode = main();
