#!/usr/bin/env node
'use strict';
// Tries that what docs/DIFFERENCES.md lists as not told is read by TypeScript's parser and isn't told: so the list says no more than
// is so, and a rule that is added takes its line away.
// usage: untold.js

const fs = require('fs');
const os = require('os');
const path = require('path');
const { spawnSync } = require('child_process');

const ROOT = path.join(__dirname, '..', '..');
const DIFFERENCES = path.join(ROOT, 'docs', 'DIFFERENCES.md');
const PART = /^## What is not told$([^]*?)^## /m;
// How the head of a table names a language, and what files of it are called.
const ENDINGS = new Map([['In scripts', 'js'], ['In modules', 'mjs'], ['In TypeScript', 'ts']]);
const SOURCE = /<code>(.*?)<\/code>|`([^`]+)`/g;

// The sources of the last cell of a row.
function sourcesIn(row) {
  const cell = row.replaceAll('\\|', '\u0000').split('|')[2].replaceAll('\u0000', '|');
  return [...cell.matchAll(SOURCE)].map(([, coded, ticked]) => coded || ticked);
}

// All sources of the part, each with the ending of its language.
function listed(text) {
  const sources = [];
  let ending;
  for (const row of text.split('\n').filter((line) => line.startsWith('| '))) {
    const head = row.split('|')[1].trim();
    if (ENDINGS.has(head)) {
      ending = ENDINGS.get(head);
    } else {
      sources.push(...sourcesIn(row).map((source) => ({ source, ending })));
    }
  }
  return sources;
}

// What `check` finds in the files, all of one goal.
function findingsOf(folder, names, goal) {
  const words = ['check', '--no-cache', '--parser', 'typescript', '--only', 'early-error', '--format', 'json', ...goal, ...names];
  const ran = spawnSync(path.join(ROOT, 'bin', 'bolgwyr'), words, { cwd: folder, encoding: 'utf8' });
  if (ran.status > 1) {
    throw new Error(`bolgwyr check: status ${ran.status}: ${ran.stderr}`);
  }
  return new Map(JSON.parse(ran.stdout).map(({ file, findings }) => [file, findings]));
}

function main() {
  const sources = listed(fs.readFileSync(DIFFERENCES, 'utf8').match(PART)[1]);
  const folder = fs.mkdtempSync(path.join(os.tmpdir(), 'untold-'));
  try {
    sources.forEach((it, number) => {
      it.name = `${number}.${it.ending}`;
      fs.writeFileSync(path.join(folder, it.name), `${it.source}\n`);
    });
    const [scripts, others] = [sources.filter((it) => it.ending === 'js'), sources.filter((it) => it.ending !== 'js')];
    const names = (some) => some.map((it) => it.name);
    const found = new Map([...findingsOf(folder, names(scripts), ['--goal', 'script']), ...findingsOf(folder, names(others), [])]);
    const told = sources.filter((it) => !found.has(it.name) || found.get(it.name).length > 0);
    for (const { name, source } of told) {
      console.log(`told: ${source}: ${found.has(name) ? found.get(name)[0].message : 'not analysed'}`);
    }
    console.log(`${sources.length} sources, ${told.length} told`);
    return sources.length > 0 && told.length === 0 ? 0 : 1;
  } finally {
    fs.rmSync(folder, { recursive: true });
  }
}

process.exitCode = main();
