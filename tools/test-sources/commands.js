'use strict';
// The command: what it writes, its status, and the line of each refusal.

const { spawnSync } = require('child_process');
const fs = require('fs');
const os = require('os');
const path = require('path');
const { load } = require('../source-to-tree/load');

const MAIN = path.join(__dirname, '../source-to-tree/main.js');
const run = (folder, ...words) => spawnSync(process.execPath, [MAIN, ...words], { cwd: folder, maxBuffer: 1 << 30 });

// Names, contents and the line on standard error, with status 1.
const REFUSED = [
  ['none.js', null, 'none.js: no such file'],
  ['.', null, '.: is a folder'],
  ['latin.js', Buffer.from([0x61, 0xe9]), 'latin.js: not UTF-8'],
  ['open.js', 'a(\n', 'open.js:2:1: Unexpected token'],
  ['deep.js', '['.repeat(20000) + ']'.repeat(20000), 'deep.js: too deep'],
  ['large.js', `"${'a'.repeat(23000000)}"`, 'large.js: too large'],
  ['tree.json', '{}', 'tree.json: not an ESTree: its top is neither Program nor File'],
  ['tree.json', '{', 'tree.json: not JSON: ', 'only its beginning'],
  ['tree.json', '{"type":"Program","body":[{"type":"EmptyStatement","start":0,"end":9}]}', 'tree.json: there is no place 9 in the source'],
  ['tree.json', '{"type":"Program"}', 'tree.json: not an ESTree: ', 'only its beginning'],
];

function refusals(tally, folder) {
  for (const [name, content, line, begins] of REFUSED) {
    const file = path.join(folder, name);
    if (content !== null) fs.writeFileSync(file, content);
    const words = name === 'tree.json' ? ['--parser', 'estree', '--source', 'open.js', name] : [name];
    const { status, stdout, stderr } = run(folder, ...words);
    const wanted = begins ? stderr.toString().startsWith(line) : stderr.toString() === `${line}\n`;
    tally.check(`command on ${name}: ${line}`, status === 1 && stdout.length === 0 && wanted, `status ${status}, ${stderr}`);
  }
}

// An ESTree that was written as JSON gives the tree that it gives when it is fresh.
function estree(tally, folder) {
  const source = '#! a\n"b"; /* c */ let d = 5n, e = /f/g, g = `h${(null)}`; // i\n({ j: (d) } = e);';
  const comments = [];
  const ast = load('acorn').parse(source, { ecmaVersion: 'latest', allowHashBang: true, preserveParens: true, onComment: comments });
  const tree = JSON.stringify({ ...ast, comments }, (key, value) => (typeof value === 'bigint' ? null : value));
  fs.writeFileSync(path.join(folder, 'e.js'), source);
  fs.writeFileSync(path.join(folder, 'e.js.json'), tree);
  const both = [run(folder, 'e.js'), run(folder, '--parser', 'estree', 'e.js.json')];
  tally.check('command on an ESTree', both.every(({ status }) => status === 0) && both[0].stdout.equals(both[1].stdout), both[1].stderr.toString());
}

function words(tally, folder) {
  for (const list of [[], ['--what', 'e.js'], ['--parser', 'esprima', 'e.js'], ['--goal'], ['e.js', 'e.js']]) {
    const { status, stderr } = run(folder, ...list);
    tally.check(`command with ${list.join(' ') || 'nothing'}`, status === 2 && stderr.toString().startsWith('usage: '), `status ${status}`);
  }
  const { status, stderr } = run(folder, '--time', '--goal', 'module', 'e.js');
  const timed = /^parser \S+ ms, conversion \S+ ms, writing \S+ ms\n$/.test(stderr.toString());
  tally.check('command with --time', status === 0 && timed, stderr.toString());
}

function checkCommands(tally) {
  const folder = fs.mkdtempSync(path.join(os.tmpdir(), 'source-to-tree-'));
  try {
    refusals(tally, folder);
    estree(tally, folder);
    words(tally, folder);
  } finally {
    fs.rmSync(folder, { recursive: true });
  }
}

module.exports = { checkCommands };
