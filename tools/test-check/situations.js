'use strict';
// What takes more than words: formats, full disks, readers that go away, interruptions, what a second run keeps, and runs over
// a folder. Each attempt gives a list of `[what, found, wanted]`.

const { spawn, spawnSync } = require('child_process');
const fs = require('fs');
const path = require('path');
const { programPath } = require('../programs/index.js');

const POLL_MS = 20;
const SLOW_SECONDS = 20;

// The status of a line of the shell, and what it wrote on standard error.
function shell(line, folder) {
  const { status, signal, stdout, stderr } = spawnSync('bash', ['-c', line], { cwd: folder, encoding: 'utf8' });
  return { status: status ?? signal, out: stdout, err: stderr };
}

async function formats({ folder, run }) {
  const outputs = {};
  for (const form of ['json', 'sarif', 'github']) {
    outputs[form] = await run(['check', '--format', form, 'twice.mjs', 'gone.mjs'], { cwd: folder });
  }
  const json = JSON.parse(outputs.json.out);
  const [sarif] = JSON.parse(outputs.sarif.out).runs;
  const [location] = sarif.results[0].locations;
  return [
    ['statuses', Object.values(outputs).map(({ status }) => status), [3, 3, 3]],
    ['json: files', json.map(({ file, failure }) => [file, failure ?? null]), [['twice.mjs', null], ['gone.mjs', 'no such file']]],
    ['json: finding', [json[0].findings[0].rule, json[0].findings[0].line, json[0].findings[0].related[0].line], ['early-error', 1, 2]],
    ['sarif: finding', [sarif.results[0].ruleId, sarif.tool.driver.rules[sarif.results[0].ruleIndex].id], ['early-error', 'early-error']],
    ['sarif: place', [location.physicalLocation.artifactLocation.uri, location.physicalLocation.region.startColumn], ['twice.mjs', 5]],
    ['sarif: failure', sarif.invocations[0].executionSuccessful, false],
    ['github', outputs.github.out, '::error file=twice.mjs,line=1,col=5,endLine=1,endColumn=6,title=early-error::Identifier `a` has already been declared\n'],
  ];
}

async function fullDisk({ folder, command }) {
  const found = shell(`"${command}" check found.mjs >/dev/full`, folder);
  return [['status', found.status, 3], ['line', found.err, /^bolgwyr: [^\n]*no space left[^\n]*\n$/i]];
}

async function closedPipe({ folder, command }) {
  const lines = Array.from({ length: 4000 }, (_, place) => `let a${place};\n`).join('');
  fs.writeFileSync(path.join(folder, 'long.mjs'), lines);
  const found = shell(`"${command}" check long.mjs | head -n 1; echo "\${PIPESTATUS[1]}"`, folder);
  return [['first line', found.out, /^long.mjs:1:5: .*\n0\n$/], ['nothing else', found.err, '']];
}

// A machine that has the tools of the shell, and no Node.
async function noNode({ folder, run }) {
  for (const tool of ['dirname', 'readlink']) {
    fs.symlinkSync(shell(`command -v ${tool}`, folder).out.trim(), path.join(folder, 'bare', tool));
  }
  const found = await run(['check', 'clean.mjs'], { cwd: folder, env: { PATH: path.join(folder, 'bare') } });
  return [['status', found.status, 3], ['line', found.err, /^bolgwyr: Node is wanted[^\n]*\n$/]];
}

// Has Node say that a module isn't there, as on a machine without it.
const HIDING = `
const Module = require('module');
const resolve = Module._resolveFilename;
Module._resolveFilename = (name, ...rest) => {
  if (name === process.env.HIDDEN) throw Object.assign(new Error(name), { code: 'MODULE_NOT_FOUND' });
  return resolve(name, ...rest);
};
`;

// What each module is needed for, on a machine that has Node alone.
const NEEDED = [
  ['commander', ['prove', '--help']],
  ['commander', ['--version']],
  ['commander', []],
  ['globals', ['check', 'found.mjs']],
  ['globby', ['check', '**/found.mjs']],
  ['magic-string', ['mangle', 'found.mjs']],
];

async function noModules({ folder, run }) {
  const hiding = path.join(folder, 'hiding.js');
  fs.writeFileSync(hiding, HIDING);
  const found = [];
  for (const [module, words] of NEEDED) {
    const said = await run(words, { cwd: folder, env: { NODE_OPTIONS: `--require ${hiding}`, HIDDEN: module } });
    found.push([`${module}, ${words.join(' ')}: status`, said.status, 3]);
    found.push([`${module}, ${words.join(' ')}: line`, said.err, `bolgwyr: the module ${module} isn't installed: run tools/setup.sh\n`]);
  }
  return found;
}

// A program that keeps what it is asked, over the one that there is.
function countingPrograms(folder) {
  const programs = path.join(folder, 'counting');
  fs.mkdirSync(programs);
  const script = `#!/bin/sh\ntee -a "${programs}/asked" | "${programPath('tools_main')}" "$@"\n`;
  fs.writeFileSync(path.join(programs, 'tools_main'), script, { mode: 0o755 });
  return programs;
}

// How many requests stand in what was asked: one for each file.
const countRequests = (asked) => asked.match(/file_check\n/g)?.length ?? 0;

// What a second run asks the programs, where nothing changed, a file did, and the cache is of no use.
async function secondRuns({ folder, run }) {
  const programs = countingPrograms(folder);
  const kept = path.join(folder, 'kept');
  fs.mkdirSync(path.join(folder, 'twice'));
  fs.writeFileSync(path.join(folder, 'twice', 'a.mjs'), 'let lone;\n');
  fs.writeFileSync(path.join(folder, 'twice', 'b.mjs'), 'export {};\n');
  const counted = async (...words) => {
    fs.writeFileSync(path.join(programs, 'asked'), '');
    const found = await run(['check', '--format', 'unix', 'twice', ...words], { cwd: folder, env: { BOLGWYR_PROGRAMS: programs } });
    return [found.status, found.out.split('\n').length - 1, countRequests(fs.readFileSync(path.join(programs, 'asked'), 'latin1'))];
  };
  const cached = ['--cache-folder', kept];
  const tries = [['first', await counted(...cached), [1, 1, 2]], ['second', await counted(...cached), [1, 1, 0]]];
  tries.push(['without the cache', await counted('--no-cache', ...cached), [1, 1, 2]]);
  tries.push(['other settings', await counted('--rule', 'no-unused=off', ...cached), [0, 0, 2]]);
  fs.writeFileSync(path.join(folder, 'twice', 'b.mjs'), 'let other;\n');
  tries.push(['a changed file', await counted(...cached), [1, 2, 1]]);
  fs.writeFileSync(path.join(kept, 'findings.json'), '[["half');
  tries.push(['a broken cache', await counted(...cached), [1, 2, 2]]);
  tries.push(['a cache that can\'t be written', await counted('--cache-folder', path.join(folder, 'twice', 'a.mjs', 'below')), [1, 2, 2]]);
  return tries;
}

// A report program that is given by hand is asked for the report, and the findings are those of bolgwyr's own programs.
async function givenReport({ folder, run }) {
  const given = path.join(folder, 'given-report');
  const asked = `${given}-asked`;
  fs.writeFileSync(given, `#!/bin/sh\necho "$@" >>"${asked}"\nexec "${programPath('tools_main')}" report "$@"\n`, { mode: 0o755 });
  const words = ['check', '--no-cache', '--format', 'json', 'found.mjs'];
  const own = await run(words, { cwd: folder });
  const found = await run(words, { cwd: folder, env: { BOLGWYR_REPORT: given } });
  return [['status', found.status, own.status], ['findings', found.out, own.out], ['what it is asked', fs.readFileSync(asked, 'utf8'), '--check\n']];
}

// Waits until there is such a file.
async function untilThere(file) {
  while (!fs.existsSync(file)) {
    await new Promise((resolve) => { setTimeout(resolve, POLL_MS); });
  }
}

// Ends a run in its midst, while it waits for programs that take long.
async function interruption({ folder, command }) {
  const programs = path.join(folder, 'slow');
  const begun = path.join(programs, 'begun');
  fs.mkdirSync(programs);
  for (const name of ['report_main', 'tools_main']) {
    fs.writeFileSync(path.join(programs, name), `#!/bin/sh\ntouch "${begun}"\nexec sleep ${SLOW_SECONDS}\n`, { mode: 0o755 });
  }
  const env = { ...process.env, BOLGWYR_PROGRAMS: programs };
  const child = spawn(command, ['check', '--no-cache', 'many'], { cwd: folder, env, stdio: 'ignore', detached: true });
  await untilThere(begun);
  const started = Date.now();
  process.kill(-child.pid, 'SIGINT');
  const status = await new Promise((resolve) => { child.on('close', (code, signal) => resolve(code ?? signal)); });
  return [['status', status, 130], ['at once', Date.now() - started < SLOW_SECONDS * 1000, true]];
}

// A run over a folder of which every file's tables are kept.
async function tablesOfFolder({ folder, run }) {
  const first = await run(['tables', '--out', 'run', 'many'], { cwd: folder });
  const results = fs.readdirSync(path.join(folder, 'run', 'results')).sort();
  const again = await run(['tables', '--out', 'run', 'many'], { cwd: folder });
  const resumed = await run(['tables', '--out', 'run', '--resume', 'many'], { cwd: folder });
  return [
    ['status', first.status, 0],
    ['sum', first.out, /^4 files, 0 refused, 0 with diagnostics/],
    ['results', results, ['deep er', 'left-out', 'one.mjs.json', 'two.mjs.json']],
    ['a run that is there already', [again.status, again.err], [2, 'bolgwyr: run has a run already: --resume goes on with it, --out names another folder\n']],
    ['a run that goes on', [resumed.status, resumed.out], [0, first.out]],
  ];
}

const SITUATIONS = [
  { name: 'formats', attempt: formats },
  { name: 'a full disk', attempt: fullDisk },
  { name: 'a reader that goes away', attempt: closedPipe },
  { name: 'no Node', attempt: noNode },
  { name: 'no modules', attempt: noModules },
  { name: 'second runs', attempt: secondRuns },
  { name: 'a report program by hand', attempt: givenReport },
  { name: 'an interruption', attempt: interruption },
  { name: 'a folder by GNU parallel', attempt: tablesOfFolder },
];

module.exports = { SITUATIONS };
