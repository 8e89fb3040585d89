'use strict';
// Runs all cases over a folder of small files, two at a time.

const fs = require('fs');
const os = require('os');
const path = require('path');
const { spawn } = require('child_process');
const bolgwyr = require('../../index.js');
const { FILES, OPTIONS, TEXTS } = require('./files.js');
const { SITUATIONS } = require('./situations.js');
const { WORDS } = require('./words.js');

const COMMAND = path.join(__dirname, '..', '..', 'bin', 'bolgwyr');
const AT_ONCE = 2;

let tried = 0;
let failed = 0;

function expect(name, found, wanted) {
  const same = wanted instanceof RegExp ? wanted.test(found) : JSON.stringify(found) === JSON.stringify(wanted);
  tried += 1;
  if (!same) {
    failed += 1;
    console.log(`FAILED: ${name}\n  wanted: ${wanted instanceof RegExp ? wanted : JSON.stringify(wanted)}\n  found:  ${JSON.stringify(found)}`);
  }
}

function makeFiles(folder) {
  for (const [name, content] of Object.entries(FILES)) {
    const file = path.join(folder, name);
    fs.mkdirSync(content === null ? file : path.dirname(file), { recursive: true });
    if (content !== null) {
      fs.writeFileSync(file, content);
    }
  }
}

// Runs bolgwyr, and gives status or signal, standard output and standard error.
function run(words, { cwd, input = '', env = {} }) {
  const child = spawn(COMMAND, words, { cwd, env: { ...process.env, ...env } });
  const said = { out: '', err: '' };
  child.stdout.setEncoding('utf8').on('data', (piece) => { said.out += piece; });
  child.stderr.setEncoding('utf8').on('data', (piece) => { said.err += piece; });
  child.stdin.on('error', () => {});
  child.stdin.end(input);
  return new Promise((resolve) => {
    child.on('close', (status, signal) => resolve({ status: status ?? signal, ...said }));
  });
}

async function tryWords(folder, { name, words, status, out, err, input, env, cwd = '.' }) {
  const found = await run(words, { cwd: path.join(folder, cwd), input, env: { XDG_CACHE_HOME: path.join(folder, '.cache'), ...env } });
  expect(`${name}: status`, found.status, status);
  if (out !== undefined) {
    expect(`${name}: standard output`, found.out, out);
  }
  if (err !== undefined) {
    expect(`${name}: standard error`, found.err, err);
  }
}

const brief = (findings) => findings.map(({ line, rule }) => `${line} ${rule}`);

function tryCalls() {
  for (const [name, file, text, wanted] of TEXTS) {
    expect(`check of ${name}`, brief(bolgwyr.check(text, { file })), wanted);
  }
  for (const [name, options, text, wanted] of OPTIONS) {
    expect(`check with ${name}`, brief(bolgwyr.check(text, { file: 'a.mjs', ...options })), wanted);
  }
}

async function tryAll(folder) {
  const waiting = [
    ...WORDS.map((one) => () => tryWords(folder, one)),
    ...SITUATIONS.map(({ name, attempt }) => async () => {
      for (const [what, found, wanted] of await attempt({ folder, command: COMMAND, run })) {
        expect(`${name}: ${what}`, found, wanted);
      }
    }),
  ];
  const worker = async () => {
    while (waiting.length > 0) {
      await waiting.shift()();
    }
  };
  await Promise.all(Array.from({ length: AT_ONCE }, worker));
}

async function main() {
  const folder = fs.mkdtempSync(path.join(os.tmpdir(), 'bolgwyr-test-'));
  try {
    makeFiles(folder);
    tryCalls();
    await tryAll(folder);
  } finally {
    fs.rmSync(folder, { recursive: true, force: true });
  }
  console.log(`${tried - failed} of ${tried} as wanted`);
  process.exitCode = failed === 0 ? 0 : 1;
}

main();
