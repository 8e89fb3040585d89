#!/usr/bin/env node
'use strict';
// Whether mangled packages answer as before: each package of tools/judge-mangle/calls.js that is installed is copied twice, the files of one
// copy that it loads are mangled in place, variables of their tops too, and both are asked the same. Ends with 1 where one answers otherwise.
// usage: judge-mangle.js [PACKAGE ..]

const fs = require('fs');
const os = require('os');
const path = require('path');
const { spawnSync } = require('child_process');
const { CALLS } = require('./judge-mangle/calls');

const INSTALLED = '/usr/share/nodejs';
const BOLGWYR = path.join(__dirname, '..', 'bin', 'bolgwyr');
const RUN = path.join(__dirname, 'judge-mangle', 'run.js');

const environment = { ...process.env, NODE_PATH: INSTALLED };
const LOADED = 'require(process.argv[1]); console.log(JSON.stringify(Object.keys(require.cache)));';

// The files of a copy that it loads, which are of CommonJS.
function filesLoaded(copy) {
  const ran = spawnSync(process.execPath, ['-e', LOADED, copy], { encoding: 'utf8', env: environment });
  if (ran.status !== 0) {
    throw new Error(`${copy}: ${ran.stderr}`);
  }
  return JSON.parse(ran.stdout).filter((file) => file.startsWith(`${fs.realpathSync(copy)}/`) && /\.c?js$/.test(file));
}

function copied(name, folder) {
  const copy = path.join(folder, 'node_modules', name);
  fs.mkdirSync(path.dirname(copy), { recursive: true });
  fs.cpSync(fs.realpathSync(path.join(INSTALLED, name)), copy, { recursive: true, dereference: true });
  return copy;
}

const bytesOf = (files) => files.reduce((sum, file) => sum + fs.statSync(file).size, 0);

// Mangles the copy, and tells how many of its files changed and how many bytes they have.
function mangled(copy) {
  const files = filesLoaded(copy);
  const before = files.map((file) => fs.readFileSync(file));
  const bytes = bytesOf(files);
  const ran = spawnSync(BOLGWYR, ['mangle', '--write', '--toplevel', '--goal', 'commonjs', ...files], { encoding: 'utf8' });
  if (ran.status > 1) {
    throw new Error(`mangle ended with ${ran.status}: ${ran.stderr}`);
  }
  const changed = files.filter((file, at) => !fs.readFileSync(file).equals(before[at])).length;
  return { files: files.length, changed, bytes, left: bytesOf(files) };
}

// The lines that a copy answers.
function answers(folder, name) {
  const ran = spawnSync(process.execPath, [RUN, folder, name], { encoding: 'utf8', maxBuffer: Infinity, env: environment });
  if (ran.status !== 0) {
    return [`ended with ${ran.status}: ${ran.stderr.split('\n').find((line) => line.includes('Error')) || ran.stderr}`];
  }
  return ran.stdout.split('\n').filter((line) => line !== '');
}

function judge(name) {
  const folder = fs.mkdtempSync(path.join(os.tmpdir(), 'judge-mangle-'));
  try {
    copied(name, path.join(folder, 'plain'));
    const { files, changed, bytes, left } = mangled(copied(name, path.join(folder, 'short')));
    const [plain, short] = ['plain', 'short'].map((which) => answers(path.join(folder, which), name));
    const other = plain.findIndex((line, at) => line.replaceAll('/plain/', '/short/') !== short[at]);
    console.log(`${name}: ${changed} of ${files} files, ${bytes} bytes, mangled ${left}: ${plain.length} answers, ${other === -1 && plain.length === short.length ? 'the same' : 'others'}`);
    if (other !== -1) {
      console.log(`  ${plain[other].slice(0, 300)}\n  ${String(short[other]).slice(0, 300)}`);
    }
    return { calls: plain.length, isSame: changed > 0 && plain.length > 1 && other === -1 && plain.length === short.length };
  } finally {
    fs.rmSync(folder, { recursive: true });
  }
}

function main(words) {
  const names = (words.length > 0 ? words : Object.keys(CALLS)).filter((name) => fs.existsSync(path.join(INSTALLED, name)));
  const judged = names.map(judge);
  const wrong = judged.filter(({ isSame }) => !isSame).length;
  console.log(`${judged.length} packages, ${judged.reduce((sum, { calls }) => sum + calls, 0)} answers, ${wrong} packages answer otherwise`);
  return wrong === 0 && judged.length > 0 ? 0 : 1;
}

process.exitCode = main(process.argv.slice(2));
