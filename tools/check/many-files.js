'use strict';
// Checks many files on the thread that calls: it makes trees while programs answer on those that are made.

const path = require('path');
const { Pool } = require('../programs/pool.js');
const { languageOf } = require('../source-to-tree/languages.js');
const { checkBy } = require('./check.js');
const { resultOf } = require('./one-file.js');

// How many batches wait for a program: enough that none is idle, and that another one is worth its start.
const WAITING = 3;

// Sources of so many bytes are a batch: their trees are written in one go. To wake a program, and to look for answers, takes longer than
// to read a small file.
const BATCH_BYTES = 1 << 16;

// The jobs, `{ .., size }`, in batches and in order; a large file is one by itself.
function batchesOf(jobs) {
  const batches = [];
  let room = 0;
  for (const job of jobs) {
    if (job.size > room || batches.length === 0) {
      batches.push([]);
      room = BATCH_BYTES;
    }
    batches[batches.length - 1].push(job);
    room -= job.size;
  }
  return batches;
}

// So many bytes of JavaScript are worth a warm-up, which takes as long as to read some thousands.
const MANY_BYTES = 1 << 18;

function warmUpFor(jobs) {
  const own = jobs.filter(({ name, settings }) => languageOf(name) === 'js' && settings.parser !== 'typescript');
  if (own.reduce((sum, { size }) => sum + size, 0) >= MANY_BYTES) {
    require('../source-to-tree/warm-up/index.js').warmUp(path.dirname(own[0].name));
  }
}

const breath = () => new Promise((resolve) => { setImmediate(resolve); });

// Jobs: `{ file, name, settings, size, place }`; `told` hears the place and the result of each as it comes. `size` is how many programs there are.
async function checkMany(jobs, { stamp, programs, size }, told) {
  const pool = new Pool({ size, programs, enough: WAITING });
  const waiting = new Set();
  const faults = [];
  const check = async (job) => told(job.place, await resultOf(job, stamp, (text, settings) => checkBy(pool, text, settings)));
  const begin = (batch) => {
    const done = Promise.all(batch.map(check))
      .catch((fault) => faults.push(fault))
      .finally(() => waiting.delete(done));
    waiting.add(done);
  };
  warmUpFor(jobs);
  for (const batch of batchesOf(jobs)) {
    begin(batch);
    await (waiting.size >= WAITING * size ? Promise.race(waiting) : breath());
    if (faults.length > 0) {
      break;
    }
  }
  await (faults.length > 0 ? null : Promise.all(waiting));
  pool.close();
  if (faults.length > 0) {
    throw faults[0];
  }
}

module.exports = { checkMany };
