'use strict';
// What `bolgwyr --version` tells: the version, the commit and the kit where they are known, and how each program was made.

const fs = require('fs');
const path = require('path');
const { spawnSync } = require('child_process');
const { CRATES, isInstalled, readyOf, STATES } = require('../programs/index.js');
const { version } = require('../../package.json');

const ROOT = path.join(__dirname, '..', '..');

const MADE = {
  proved: () => 'proved',
  unproved: () => 'built without a proof',
  none: () => 'not built for the sources as they stand',
  given: (place) => `${place}, which is named in the environment`,
};

// The line that a tool prints, or null.
function lineOf(tool, words) {
  const run = spawnSync(tool, words, { cwd: ROOT, encoding: 'utf8', stdio: ['ignore', 'pipe', 'ignore'] });
  return run.status === 0 ? run.stdout.trim() : null;
}

// What was noted of an installed copy when it was made.
function noted(word) {
  const line = fs.readFileSync(STATES, 'utf8').split('\n').find((it) => it.startsWith(`${word} `));
  return line === undefined ? null : line.slice(word.length + 1);
}

function originOf() {
  if (isInstalled()) {
    return { commit: noted('commit'), kit: noted('kit') };
  }
  const commit = fs.existsSync(path.join(ROOT, '.git')) ? lineOf('git', ['describe', '--always', '--dirty', '--exclude', '*']) : null;
  return { commit, kit: lineOf('rt', ['version']) };
}

function versionText() {
  const { commit, kit } = originOf();
  const lines = [`bolgwyr ${version}${commit === null ? '' : ` (${commit})`}`, `kit: ${kit ?? 'none on the path'}`];
  for (const crate of CRATES) {
    const { state, place } = readyOf(crate);
    lines.push(`${crate}: ${MADE[state](place)}`);
  }
  return lines.map((line) => `${line}\n`).join('');
}

module.exports = { versionText };
