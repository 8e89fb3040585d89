'use strict';
// A thread that checks its share of many files.

const { parentPort, workerData } = require('worker_threads');
const { checkMany } = require('./many-files.js');

const { jobs, settings } = workerData;

checkMany(jobs, settings, (place, result) => parentPort.postMessage({ place, result })).catch(({ message, status, stack }) => {
  parentPort.postMessage({ fault: { message, status, stack } });
});
