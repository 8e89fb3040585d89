'use strict';
// Tries the command itself: what it writes where, and its statuses.

const fs = require('fs');
const os = require('os');
const path = require('path');
const { spawnSync } = require('child_process');
const { programPath } = require('../programs/index.js');
const { RunFault } = require('../bolgwyr/faults.js');
const { renameInProject } = require('../rename/project.js');
const PROJECTS = require('./projects.js');

const COMMAND = path.join(__dirname, '..', 'bolgwyr', 'main.js');

const SHOWN = ['let total = 1;', 'function sum(list) {', '  let total = 0;', '  for (const each of list) total += each;', '  return { total };', '}', ''];

const SHOWN_DIFF = `--- sum.mjs
+++ sum.mjs
@@ -1,6 +1,6 @@
 let total = 1;
 function sum(list) {
-  let total = 0;
-  for (const each of list) total += each;
-  return { total };
+  let all = 0;
+  for (const each of list) all += each;
+  return { total: all };
 }
`;

const REFUSED = `sum.mjs:4:28: \`each\` here would mean the one of 4:14
  4 |   for (const each of list) total += each;
    |                            ^^^^^
`;

const SCRIPT_WARNING = "warning: `a` is a name of a script's top level: other scripts of a page may use it\n";

// Files in a folder of their own, and the command run there.
function bench(folder) {
  const at = (name) => path.join(folder, name);
  return {
    at,
    put: (name, content, mode) => fs.writeFileSync(at(name), content, { mode }),
    read: (name) => fs.readFileSync(at(name), 'utf8'),
    run(words, env = {}) {
      const done = spawnSync(process.execPath, [COMMAND, 'rename', ...words], { cwd: folder, encoding: 'utf8', env: { ...process.env, ...env } });
      return { status: done.status, out: done.stdout, errs: done.stderr };
    },
    patched(name, diff) {
      const done = spawnSync('patch', ['-s', '-o', '-', name], { cwd: folder, input: diff, encoding: 'utf8' });
      return done.stdout;
    },
  };
}

const told = ({ status, out, errs }) => `${status}|${out}|${errs}`;

function answers({ put, run, patched }, expect) {
  put('sum.mjs', SHOWN.join('\n'));
  const diff = run(['sum.mjs:3:7', 'all']);
  expect('a diff', `0|${SHOWN_DIFF}|`, told(diff));
  expect('a diff that is applied', SHOWN.join('\n').replace('let total = 0', 'let all = 0').replace('total +=', 'all +=').replace('{ total }', '{ total: all }'),
    patched('sum.mjs', diff.out));
  expect('a refusal', `1||${REFUSED}`, told(run(['sum.mjs:3:7', 'each'])));
  expect('a refusal as an object', '1|{"file":"sum.mjs","refused":{"message":"`each` here would mean the one of 4:14","line":4,"column":28}}\n|',
    told(run(['sum.mjs:3:7', 'each', '--json'])));
  expect('edits', '0|{"to":"all","files":[{"file":"sum.mjs","edits":[{"start":66,"end":70,"line":4,"column":14,"old":"each","text":"all"},'
    + '{"start":89,"end":93,"line":4,"column":37,"old":"each","text":"all"}]}],"warnings":[],"written":false}\n|', told(run(['sum.mjs:each', 'all', '--json'])));
  expect('a name that it has', '0||', told(run(['sum.mjs:list', 'list'])));
  expect('two of a name', '1||sum.mjs: `total` is declared more than once: name one of the places 1:5, 3:7\n', told(run(['sum.mjs:total', 'all'])));
  put('page.js', 'var a;');
  expect('a script', `0|--- page.js\n+++ page.js\n@@ -1,1 +1,1 @@\n-var a;\n\\ No newline at end of file\n+var b;\n\\ No newline at end of file\n|${SCRIPT_WARNING}`,
    told(run(['page.js:a', 'b'])));
  put('common.js', 'var a;\nexports.b = a;\n');
  expect('a module of CommonJS', '', run(['common.js:a', 'c']).errs);
  put('ends.mjs', 'let a;\r\n\r\n\r\n\r\n\r\n\r\n\r\n\r\n\r\na\r\n');
  const ends = run(['ends.mjs:a', 'b']).out;
  expect('two hunks', 2, ends.split('\n').filter((line) => line.startsWith('@@')).length);
  put('odd name.mjs', 'let a = `\n`;\n');
  expect('a name with a space', 'let b = `\n`;\n', patched('odd name.mjs', run(['odd name.mjs:1:5', 'b']).out));
}

function writing({ at, put, read, run }, expect) {
  put('written.mjs', 'let a;\n', 0o640);
  fs.symlinkSync('written.mjs', at('link.mjs'));
  expect('writing', '0||link.mjs: 1 place renamed\n', told(run(['link.mjs:a', 'b', '--write'])));
  expect('what is written', 'let b;\n', read('written.mjs'));
  expect('rights', 0o640, fs.statSync(at('written.mjs')).mode & 0o777);
  expect('a link', true, fs.lstatSync(at('link.mjs')).isSymbolicLink());
  put('closed.mjs', 'let a;\n', 0o444);
  expect('a file that is read-only', '3||bolgwyr: closed.mjs: is read-only: nothing is written\n', told(run(['closed.mjs:a', 'b', '--write'])));
  expect('what is left', 'let a;\n', read('closed.mjs'));
  expect('no other files', '', fs.readdirSync(at('.')).filter((name) => name.endsWith('.new')).join());
}

// A renamer in whose time the file changes.
function meanwhile({ at, put, read, run }, expect) {
  fs.mkdirSync(at('programs'));
  put('programs/report_main', `#!/bin/sh\nexec '${programPath('report_main')}' "$@"\n`, 0o755);
  put('programs/tools_main', `#!/bin/sh\n[ "$1" = renamer ] && echo '// more' >> moved.mjs\nexec '${programPath('tools_main')}' "$@"\n`, 0o755);
  put('moved.mjs', 'let a;\n');
  const done = run(['moved.mjs:a', 'b', '--write'], { BOLGWYR_PROGRAMS: at('programs') });
  expect('a file that changes meanwhile', '3||bolgwyr: moved.mjs: has changed since it was read: nothing is written\n', told(done));
  expect('the changed file', 'let a;\n// more\n', read('moved.mjs'));
  const missing = run(['moved.mjs:a', 'b'], { BOLGWYR_PROGRAMS: at('nowhere') });
  expect('programs that are not there', '3||true', `${missing.status}|${missing.out}|${missing.errs.includes("can't be run")}`);
}

function faults({ put, run }, expect) {
  const lines = (words) => { const { status, errs } = run(words); return `${status} ${errs.split('\n')[0]}`; };
  expect('no words', "2 bolgwyr: missing required argument 'place'", lines([]));
  expect('one word', "2 bolgwyr: missing required argument 'name'", lines(['sum.mjs:3:7']));
  expect('a word too many', '2 bolgwyr: too many arguments for \'rename\'. Expected 2 arguments but got 3.', lines(['sum.mjs:3:7', 'a', 'b']));
  expect('an unknown word', "2 bolgwyr: unknown option '--wrong'", lines(['sum.mjs:3:7', 'a', '--wrong']));
  expect('no place', '2 bolgwyr: "sum.mjs" is no place: FILE:LINE:COLUMN, both from 1, or FILE:NAME', lines(['sum.mjs', 'a']));
  expect('column 0', '2 bolgwyr: "sum.mjs:3:0" is no place: FILE:LINE:COLUMN, both from 1, or FILE:NAME', lines(['sum.mjs:3:0', 'a']));
  expect('no identifier', '2 bolgwyr: "a-b" is no identifier', lines(['sum.mjs:3:7', 'a-b']));
  expect('an empty name', '2 bolgwyr: "" is no identifier', lines(['sum.mjs:3:7', '']));
  expect('an escape', '2 bolgwyr: "\\\\u0061" is no identifier: escapes are refused', lines(['sum.mjs:3:7', '\\u0061']));
  expect('words that part', '2 bolgwyr: --project goes with neither --parser nor --goal', lines(['sum.mjs:3:7', 'a', '--goal', 'script', '--project', 'sum.mjs']));
  expect('a missing file', '3 bolgwyr: none.mjs: no such file', lines(['none.mjs:3:7', 'a']));
  expect('a folder', '3 bolgwyr: .: is a folder', lines(['.:3:7', 'a']));
  put('bytes.js', Buffer.from([0x61, 0xff]));
  expect('no UTF-8', '3 bolgwyr: bytes.js:1:2: not UTF-8 at byte 1', lines(['bytes.js:1:1', 'a']));
  put('broken.js', 'let a = 1 +;\n');
  expect('a syntax error', '3 bolgwyr: broken.js:1:12: Unexpected token', lines(['broken.js:1:5', 'b']));
  expect('a line beyond the last', '1 sum.mjs: there is no line 9: the last one is 7', lines(['sum.mjs:9:1', 'a']));
  expect('a column beyond the line', '1 sum.mjs: line 1 has no column 15: it has 14 characters', lines(['sum.mjs:1:15', 'a']));
}

// Renamings across modules.
function projects({ at, put, read }, expect) {
  for (const [number, { name, files, rename: [file, symbol, to], entries, wanted, refused }] of PROJECTS.entries()) {
    const folder = `project${number}`;
    for (const [each, content] of Object.entries(files)) {
      fs.mkdirSync(path.dirname(at(`${folder}/${each}`)), { recursive: true });
      put(`${folder}/${each}`, content);
    }
    const apps = Object.keys(files).filter((each) => each.startsWith('app.'));
    expect(name, JSON.stringify(wanted === undefined ? refused : byName(wanted)), JSON.stringify(changed({ file, name: symbol, to, entries: entries || apps, cwd: at(folder) })));
  }
  const [first] = PROJECTS;
  const run = bench(at('project0')).run(['a.mjs:area', 'surface', '--write', '--project', 'app.mjs']);
  expect('several files', '0||a.mjs: 2 places renamed\napp.mjs: 3 places renamed\n', told(run));
  expect('what is written to them', JSON.stringify(first.wanted), JSON.stringify({ 'a.mjs': read('project0/a.mjs'), 'app.mjs': read('project0/app.mjs') }));
}

const byName = (texts) => Object.fromEntries(Object.entries(texts).sort(([a], [b]) => (a < b ? -1 : 1)));

// The texts of files that change, or the first line of a refusal or a fault.
function changed(options) {
  try {
    const { changes } = renameInProject(options);
    return byName(Object.fromEntries(changes.map(({ shown, after }) => [shown, after])));
  } catch (error) {
    if (error instanceof RunFault) {
      return error.message;
    }
    if (error.linesFor === undefined) {
      throw error;
    }
    return error.linesFor(error.file || options.file)[0];
  }
}

function commands(expect) {
  const folder = fs.mkdtempSync(path.join(os.tmpdir(), 'rename-'));
  try {
    const own = bench(folder);
    answers(own, expect);
    writing(own, expect);
    meanwhile(own, expect);
    faults(own, expect);
    projects(own, expect);
  } finally {
    fs.rmSync(folder, { recursive: true });
  }
}

module.exports = { commands };
