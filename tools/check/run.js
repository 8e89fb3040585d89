'use strict';
// Checks files: those that the cache knows at once, all others with the processors that there are.

const fs = require('fs');
const os = require('os');
const { RunFault } = require('../bolgwyr/faults.js');
const { programsFor } = require('../programs/index.js');
const { keptResult } = require('./one-file.js');
const { toolsFor } = require('./requests.js');
const { PROGRAMS } = require('./rules.js');

// How many programs one thread keeps busy: they answer faster than it makes trees, and each more has to be started.
const BUSY_PROGRAMS = 2;

// What a thread more is worth: it has to compile all code anew, which takes as long as a fraction of so many bytes do.
const BYTES_A_THREAD = 8 << 20;

function sizeOf(file) {
  return fs.statSync(file, { throwIfNoEntry: false })?.size ?? 0;
}

// The largest first, so that none of them is begun late.
function largestFirst(jobs) {
  return jobs.map((job) => ({ ...job, size: job.size ?? sizeOf(job.file) })).sort((left, right) => right.size - left.size);
}

// Each n-th job, so that shares are about equally large.
function shareOf(jobs, place, shares) {
  return jobs.filter((job, at) => at % shares === place);
}

function faultOf({ message, status, stack }) {
  return Object.assign(new Error(message), status === undefined ? { stack } : { status });
}

function runThread(workerData, told) {
  const { Worker } = require('worker_threads');
  const worker = new Worker(require.resolve('./worker.js'), { workerData });
  return new Promise((resolve, reject) => {
    worker.on('message', ({ place, result, fault }) => (fault === undefined ? told(place, result) : reject(faultOf(fault))));
    worker.on('error', reject);
    worker.on('exit', resolve);
  });
}

async function checkByThreads(jobs, threads, settings, told) {
  const shares = Array.from({ length: threads }, (_, place) => {
    return { jobs: shareOf(jobs, place, threads), settings: { ...settings, size: 1 } };
  });
  await Promise.all(shares.map((share) => runThread(share, told)));
}

// The programs that any rule goes by; without one of them no file gets an answer.
function programsToRun() {
  const programs = programsFor(PROGRAMS);
  for (const program of Object.values(programs)) {
    try {
      fs.accessSync(program, fs.constants.X_OK);
    } catch (error) {
      throw new RunFault(`${program} can't be run: ${error.message}`);
    }
  }
  return programs;
}

// Checks what isn't kept.
async function checkAnew(jobs, stamp, told) {
  const processors = os.availableParallelism();
  const sorted = largestFirst(jobs);
  const bytes = sorted.reduce((sum, { size }) => sum + size, 0);
  const threads = Math.min(processors, Math.floor(bytes / BYTES_A_THREAD));
  const settings = { stamp, programs: programsToRun() };
  if (threads > 1) {
    await checkByThreads(sorted, threads, settings, told);
  } else {
    const { checkMany } = require('./many-files.js');
    const size = Math.min(processors, BUSY_PROGRAMS, toolsFor(PROGRAMS).length * jobs.length);
    await checkMany(sorted, { ...settings, size }, told);
  }
}

// The results of files, in their order. Jobs: `{ file, name, settings }`; `told` hears that a result is there.
async function checkFiles(jobs, cache, told) {
  const results = [];
  const take = (place, { key, ...result }) => {
    results[place] = result;
    if (key !== undefined) {
      cache.set(key, result.findings);
    }
    told();
  };
  const left = [];
  jobs.forEach((job, place) => {
    const kept = cache.isEmpty ? undefined : keptResult(job, cache);
    if (kept === undefined) {
      left.push({ ...job, place });
    } else {
      take(place, kept);
    }
  });
  await (left.length > 0 && checkAnew(left, cache.stamp, take));
  return results;
}

module.exports = { checkFiles };
