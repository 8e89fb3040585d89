'use strict';
// Tries the command itself: what it writes where, and its statuses.

const fs = require('fs');
const os = require('os');
const path = require('path');
const { spawnSync } = require('child_process');

const COMMAND = path.join(__dirname, '..', 'bolgwyr', 'main.js');

const SUM = 'export function sum(list) { return list; }\n';
const SHORT_SUM = 'export function sum(e) { return e; }\n';
const TANGLED = 'function f(a) {\n  try { a(); } catch (error) { var error = 1; }\n}\n';
const TANGLED_LINES = "tangled.js:2:36: is left as it is: `error` can't be followed: a `var` stands in a catch clause that catches its name (ECMAScript B.3.4)\n"
  + '  2 |   try { a(); } catch (error) { var error = 1; }\n    |                                    ^^^^^\n';
const SIZES = (file) => `${file}: 43 bytes, mangled 37\n`;

// Files in a folder of their own, and the command run there.
function bench(folder) {
  const at = (name) => path.join(folder, name);
  return {
    at,
    put: (name, content) => fs.writeFileSync(at(name), content),
    read: (name) => fs.readFileSync(at(name), 'utf8'),
    run(words, input = '') {
      const { status, stdout, stderr } = spawnSync(process.execPath, [COMMAND, 'mangle', ...words], { cwd: folder, encoding: 'utf8', input });
      return `${status}|${stdout}|${stderr}`;
    },
  };
}

function showing({ put, run }, expect) {
  put('sum.mjs', SUM);
  put('tangled.js', TANGLED);
  put('broken.js', 'let a = 1 +;\n');
  expect('a file', `0|${SHORT_SUM}|${SIZES('sum.mjs')}`, run(['sum.mjs']));
  expect('standard input', `0|${SHORT_SUM}|${SIZES('a.mjs')}`, run(['-', '--stdin-name', 'a.mjs'], SUM));
  expect('a tangled name', `1||${TANGLED_LINES}`, run(['tangled.js']));
  expect('a syntax error', '3||bolgwyr: broken.js:1:12: Unexpected token\n', run(['broken.js']));
  expect('a missing file', '3||bolgwyr: none.js: no such file\n', run(['none.js']));
}

function writing({ at, put, read, run }, expect) {
  put('sum.mjs', SUM);
  fs.chmodSync(at('sum.mjs'), 0o640);
  const folder = run(['sum.mjs', 'tangled.js', './sum.mjs', '-o', 'short', '--source-map']);
  expect('a folder', `1||${SIZES('sum.mjs')}${TANGLED_LINES}`, folder);
  expect('what is in the folder', 'sum.mjs,sum.mjs.map', fs.readdirSync(at('short')).sort().join());
  expect('the source stays', SUM, read('sum.mjs'));
  expect('the mangled text', `${SHORT_SUM}//# sourceMappingURL=sum.mjs.map\n`, read('short/sum.mjs'));
  const { file, sources, sourcesContent, names } = JSON.parse(read('short/sum.mjs.map'));
  expect('its map', JSON.stringify(['sum.mjs', ['../sum.mjs'], [SUM], ['list']]), JSON.stringify([file, sources, sourcesContent, names]));
  expect('writing', `1||${TANGLED_LINES}${SIZES('sum.mjs')}`, run(['tangled.js', 'sum.mjs', '--write']));
  expect('what is written', SHORT_SUM, read('sum.mjs'));
  expect('rights', 0o640, fs.statSync(at('sum.mjs')).mode & 0o777);
  expect('what is left as it is', TANGLED, read('tangled.js'));
  put('sum.mjs', SUM);
  fs.chmodSync(at('sum.mjs'), 0o444);
  expect('a file that is read-only', '3||bolgwyr: sum.mjs: is read-only: nothing is written\n', run(['sum.mjs', '--write', '--source-map']));
  expect('no map of it, and no other files', 'broken.js,short,sum.mjs,tangled.js', fs.readdirSync(at('.')).sort().join());
}

function faults({ run }, expect) {
  const line = (words) => run(words).split('\n')[0];
  expect('no words', "2||bolgwyr: missing required argument 'file'", line([]));
  expect('several files', '2||bolgwyr: several files want --write or -o', line(['a.js', 'b.js']));
  expect('two ways to write', '2||bolgwyr: one of --write and -o is wanted', line(['a.js', '--write', '-o', 'short']));
  expect('a map of what is shown', '2||bolgwyr: --source-map wants --write or -o', line(['a.js', '--source-map']));
  expect('standard input that is written', '2||bolgwyr: standard input goes to standard output: no --write, no -o', line(['-', '--write']));
  expect('the folder of the file', '2||bolgwyr: -o . would write over sum.mjs: --write does that', line(['sum.mjs', '-o', '.']));
  expect('a file of another folder', '2||bolgwyr: -o takes files of this folder and below it: ../a.js is none', line(['../a.js', '-o', 'short']));
  expect('an unknown word', "2||bolgwyr: unknown option '--wrong'", line(['a.js', '--wrong']));
}

function commands(expect) {
  const folder = fs.mkdtempSync(path.join(os.tmpdir(), 'mangle-'));
  try {
    const own = bench(folder);
    showing(own, expect);
    writing(own, expect);
    faults(own, expect);
  } finally {
    fs.rmSync(folder, { recursive: true });
  }
}

module.exports = { commands };
