'use strict';
// What stands for the tools, the parsers and the programs: where it is the same, a file has the findings that it had.

const fs = require('fs');
const path = require('path');
const { load } = require('../source-to-tree/load.js');
const { cratesOf, prepare, programPath } = require('../programs/index.js');
const { PROGRAMS } = require('./rules.js');
const { version } = require('../../package.json');

const FOLDERS = ['analyse', 'check', 'programs', 'source-to-tree'].map((name) => path.join(__dirname, '..', name));
const PACKAGES = ['acorn', 'acorn-jsx', 'typescript', 'globals'];

// Size and time of a file, or null where there is none.
function traceOf(file) {
  const found = fs.statSync(file, { throwIfNoEntry: false });
  return found === undefined ? null : [found.size, found.mtimeMs];
}

function filesBelow(folder) {
  return fs.readdirSync(folder, { withFileTypes: true }).flatMap((entry) => {
    const name = path.join(folder, entry.name);
    return entry.isDirectory() ? filesBelow(name) : [name];
  });
}

// The package as it is found, without loading it.
function traceOfPackage(name) {
  try {
    return traceOf(require.resolve(name));
  } catch {
    return null;
  }
}

function stamp() {
  load('globals');
  const crates = cratesOf(PROGRAMS);
  prepare(crates);
  const programs = crates.map(programPath);
  const traces = [version, process.version, ...[...FOLDERS.flatMap(filesBelow), ...programs].map(traceOf), ...PACKAGES.map(traceOfPackage)];
  return require('crypto').createHash('sha256').update(JSON.stringify(traces)).digest('base64');
}

module.exports = { stamp };
