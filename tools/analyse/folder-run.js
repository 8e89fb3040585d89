'use strict';
// All source files below a folder, by GNU parallel, on this machine or on several: each file's tables as a file, and a
// summary of all. A run that was broken off can go on.

const fs = require('fs');
const os = require('os');
const path = require('path');
const { STATUS, UsageFault } = require('../bolgwyr/faults.js');
const { packBundles, unpackAnswers } = require('./bundles.js');
const { summarise } = require('./collect.js');
const { checkEngine, runJobs } = require('./engine.js');
const { sourceFiles } = require('./folder.js');
const { batchSize, dealt } = require('./jobs.js');
const { say, tell } = require('./output.js');

// The names of what a run makes.
function placesOf(folder, settings) {
  const out = path.resolve(settings.out);
  return {
    out,
    folder: path.resolve(folder),
    results: path.join(out, 'results'),
    files: path.join(out, 'files'),
    jobs: path.join(out, 'jobs'),
    bundles: path.join(out, 'bundles'),
    answers: path.join(out, 'answers'),
    asked: path.join(out, 'asked.json'),
    joblog: path.join(out, 'joblog'),
    rows: path.join(out, 'rows.jsonl'),
    summary: path.join(out, 'summary.jsonl'),
  };
}

// What may not change when a run goes on.
function askedOf(settings, places, batch) {
  const { form, words, parser, goal, transfer } = settings;
  return { folder: places.folder, batch, form, words, parser: parser ?? null, goal: goal ?? null, transfer };
}

function writeNames(file, names) {
  fs.writeFileSync(file, names.map((name) => `${name}\0`).join(''));
}

// Lists the files of a new run and deals them to jobs.
function begin(settings, places) {
  if (fs.existsSync(places.asked)) {
    throw new UsageFault(`${settings.out} has a run already: --resume goes on with it, --out names another folder`);
  }
  const skips = (name, whole) => whole === places.out || (name === 'node_modules' && !settings.nodeModules);
  const files = sourceFiles(places.folder, skips);
  const batch = settings.batch ?? batchSize(files.length, os.availableParallelism());
  const names = dealt(files, batch).map((file) => file.name);
  fs.mkdirSync(places.results, { recursive: true });
  writeNames(places.files, names);
  writeNames(places.jobs, settings.transfer ? packBundles(places, names, batch) : names);
  fs.writeFileSync(places.rows, '');
  fs.writeFileSync(places.asked, JSON.stringify(askedOf(settings, places, batch)));
  return batch;
}

// Goes on with a run of the same words.
function resume(settings, places) {
  if (!fs.existsSync(places.asked)) {
    throw new UsageFault(`${settings.out} has no run to go on with`);
  }
  const asked = JSON.parse(fs.readFileSync(places.asked, 'utf8'));
  const again = askedOf(settings, places, settings.batch ?? asked.batch);
  if (JSON.stringify(again) !== JSON.stringify(asked)) {
    throw new UsageFault(`the run in ${settings.out} was begun with other words or another folder`);
  }
  return asked.batch;
}

function runOf(settings, places, batch) {
  const { form, words, parser, goal, transfer } = settings;
  return {
    out: places.out,
    list: places.jobs,
    joblog: places.joblog,
    batch: transfer ? 1 : batch,
    resume: settings.resume,
    jobs: settings.jobs,
    bar: process.stderr.isTTY === true,
    machines: settings.machines === null ? null : path.resolve(settings.machines),
    transfer,
    settings: { out: places.out, folder: places.folder, results: places.results, bundled: transfer, form, words, parser, goal },
  };
}

// Writes the summary and prints its end.
function conclude(places, ended) {
  const names = fs.readFileSync(places.files, 'utf8').split('\0').slice(0, -1).sort();
  const { rows, sum, missing, lines } = summarise(names, places.rows);
  fs.writeFileSync(places.summary, rows.map((row) => `${JSON.stringify(row)}\n`).join(''));
  say(lines.map((line) => `${line}\n`).join(''));
  if (missing > 0) {
    const why = ended.signal === null ? `GNU parallel ended with status ${ended.status}` : `GNU parallel was ended by ${ended.signal}`;
    tell(`bolgwyr: ${missing} files are left over (${why}): --resume goes on`);
    return STATUS.FAILED;
  }
  return sum.clean ? STATUS.CLEAN : STATUS.FOUND;
}

// Settings: `form`, `words` for the report program, `parser`, `goal`, `out`, `resume`, `jobs`, `batch`, `nodeModules`,
// `machines` and `transfer`.
async function analyseFolder(folder, settings) {
  checkEngine();
  const places = placesOf(folder, settings);
  const batch = settings.resume ? resume(settings, places) : begin(settings, places);
  const rows = fs.openSync(places.rows, 'a');
  const ended = await runJobs(runOf(settings, places, batch), rows);
  if (settings.transfer) {
    unpackAnswers(places);
  }
  return conclude(places, ended);
}

module.exports = { analyseFolder };
