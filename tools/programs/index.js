'use strict';
// The programs of the crates: where they stand, and how one is run on a tree.

const fs = require('fs');
const path = require('path');
const { spawnSync } = require('child_process');
const { RunFault } = require('../bolgwyr/faults.js');
const { environmentFor } = require('./pages.js');

// The program that has all tools and serves requests to them, and the one that has the report alone.
const SERVING = 'tools_main';
const REPORT_ALONE = 'report_main';
const CRATES = [REPORT_ALONE, SERVING];

// The programs of an installed copy stand here, with a file that notes how each was made. It has no crates.
const INSTALLED = path.join(__dirname, '..', '..', 'programs');
const STATES = path.join(INSTALLED, 'states');
const isInstalled = () => fs.existsSync(INSTALLED);

// The report program that is to run in the place of the repository's own.
const GIVEN = { [REPORT_ALONE]: 'BOLGWYR_REPORT' };

const isReportGiven = () => Boolean(process.env[GIVEN[REPORT_ALONE]]);

// Whether the folder that is named for programs has the one with the report alone.
function isInFolder() {
  const folder = process.env.BOLGWYR_PROGRAMS;
  return Boolean(folder) && fs.existsSync(path.join(folder, REPORT_ALONE));
}

const asked = (tool, isAlone) => (isAlone ? { crate: REPORT_ALONE, words: [] } : { crate: SERVING, words: [tool] });

// The crate whose program answers many requests to a tool, and the words by which that program knows it. All tools are in one program,
// so that one is to be built.
const servedBy = (tool) => asked(tool, tool === 'report' && isReportGiven());

// The same for a program that runs for one answer.
const runBy = (tool) => asked(tool, tool === 'report' && (isReportGiven() || isInFolder()));

// The crates whose programs answer requests to some tools.
const cratesOf = (tools) => [...new Set(tools.map((tool) => servedBy(tool).crate))];

// Where the program of each crate stands that was asked for, by its crate. A run of this process keeps to it.
const places = new Map();

// What ready.sh says of a crate: how its program was made, and where it stands. It is told by the state `none` where it isn't built.
function readyOf(crate) {
  const given = process.env[GIVEN[crate]];
  if (given) {
    return { state: 'given', place: given.includes('/') ? path.resolve(given) : given };
  }
  const run = spawnSync(path.join(__dirname, 'ready.sh'), [crate], { encoding: 'utf8', stdio: ['ignore', 'pipe', 'inherit'] });
  if (run.status !== 0) {
    throw new RunFault(`${crate}: ${run.error ? run.error.message : 'its state can\'t be told'}`);
  }
  return readyIn(run.stdout.trim());
}

function readyIn(line) {
  const end = line.indexOf(' ');
  return end === -1 ? { state: line, place: null } : { state: line.slice(0, end), place: path.resolve(line.slice(end + 1)) };
}

// Builds programs side by side. What is built, and how far it is, is told on standard error.
function build(crates) {
  const lines = runPython('build.py', crates, `${crates.join(' and ')} can't be built`).trim().split('\n');
  lines.forEach((line, at) => places.set(crates[at], readyIn(line).place));
}

// What a script of this folder prints. It ends with this process, and this process ends as it does where that is by a signal.
function runPython(script, crates, fault) {
  const words = [path.join(__dirname, script), '--with-parent', ...crates];
  const { error, signal, status, stdout } = spawnSync('python3', words, { encoding: 'utf8', stdio: ['ignore', 'pipe', 'inherit'] });
  if (error) {
    throw new RunFault(`Python is wanted to build and prove: ${error.message}`);
  }
  if (signal) {
    process.kill(process.pid, signal);
  }
  if (status !== 0) {
    throw new RunFault(fault);
  }
  return stdout;
}

// Proves the programs of some crates and builds the proved ones. How far it is, is told on standard error.
function prove(crates) {
  if (isInstalled()) {
    throw new RunFault('an installed copy has no crates to prove: bolgwyr --version tells whether its programs are proved');
  }
  runPython('prove.py', crates, `not proved: ${crates.join(' and ')}`);
}

// Has the programs of some crates stand ready, and builds those that don't, side by side.
function prepare(crates) {
  const asked = crates.filter((crate) => !places.has(crate));
  for (const crate of asked) {
    const { place } = readyOf(crate);
    if (place !== null) {
      places.set(crate, place);
    }
  }
  const lacking = asked.filter((crate) => !places.has(crate));
  if (lacking.length > 0) {
    build(lacking);
  }
}

// The program of a crate, which is built first if need be: that of the folder BOLGWYR_PROGRAMS where it is set (BOLGWYR_REPORT names the
// report program itself), else the proved one of the sources as they stand, else one built from them without a proof.
function programPath(crate) {
  prepare([crate]);
  return places.get(crate);
}

// Where the programs that have some tools stand, by their crates.
function programsFor(tools) {
  const crates = cratesOf(tools);
  prepare(crates);
  return Object.fromEntries(crates.map((crate) => [crate, programPath(crate)]));
}

// Runs a tool with words and standard input, and gives its status, standard output as bytes and standard error as text.
function runTool(tool, words, input) {
  const { crate, words: own } = runBy(tool);
  const program = programPath(crate);
  const run = spawnSync(program, [...own, ...words], { input, env: environmentFor(input), maxBuffer: Infinity });
  if (run.status === null && run.signal === null) {
    throw new RunFault(`${program} can't be run: ${run.error.message}`);
  }
  return { status: run.status, signal: run.signal, stdout: run.stdout, stderr: run.stderr.toString('utf8') };
}

module.exports = { CRATES, SERVING, STATES, cratesOf, isInstalled, isReportGiven, prepare, programPath, programsFor, prove, readyOf, runBy, runTool, servedBy };
