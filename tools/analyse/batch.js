#!/usr/bin/env node
'use strict';
// One job of bolgwyr tables --out: batch.js SETTINGS NAME.. writes the result of each file, and a row on standard output for
// each. SETTINGS is JSON. The names are those of files below a folder, or that of a bundle of files, which is answered by
// a bundle of results. Status 0 says that all have their results, refused files too.

const fs = require('fs');
const path = require('path');
const { pack, unpack } = require('./bundles.js');
const { sourceFiles } = require('./folder.js');
const { say, tell } = require('./output.js');
const { endingOf, resultOf } = require('./results.js');

function analyse(name, settings) {
  const { content, row } = resultOf(path.join(settings.folder, name), name, settings);
  const target = path.join(settings.results, `${name}${endingOf(settings.form)}`);
  fs.mkdirSync(path.dirname(target), { recursive: true });
  // A job that is broken off leaves no half of a result.
  fs.writeFileSync(`${target}.part`, content);
  fs.renameSync(`${target}.part`, target);
  return row;
}

function analyseFiles(names, settings) {
  for (const name of names) {
    say(`${JSON.stringify(analyse(name, settings))}\n`);
  }
}

// Answers `bundles/NAME` by `answers/NAME`. Both stand below the current folder on another machine, and where they were
// made on the machine that began.
function analyseBundle(bundle, settings) {
  const base = fs.existsSync(path.join('bundles', bundle)) ? process.cwd() : settings.out;
  const scratch = fs.mkdtempSync(path.join(process.cwd(), 'job-'));
  try {
    const folder = path.join(scratch, 'files');
    const results = path.join(scratch, 'results');
    unpack(path.join(base, 'bundles', bundle), folder);
    fs.mkdirSync(results);
    analyseFiles(sourceFiles(folder, () => false).map((file) => file.name), { ...settings, folder, results });
    fs.mkdirSync(path.join(base, 'answers'), { recursive: true });
    pack(path.join(base, 'answers', bundle), results, ['.']);
  } finally {
    fs.rmSync(scratch, { recursive: true, force: true });
  }
}

function main([text, ...names]) {
  const settings = JSON.parse(text);
  try {
    if (settings.bundled) {
      analyseBundle(names[0], settings);
    } else {
      analyseFiles(names, settings);
    }
    return 0;
  } catch (error) {
    tell(`bolgwyr: ${error.message}`);
    return 3;
  }
}

process.exitCode = main(process.argv.slice(2));
