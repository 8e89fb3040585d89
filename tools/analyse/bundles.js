'use strict';
// Files and results on the way to other machines and back: an archive for each job. Its names are plain, whatever the
// files are called.

const { execFileSync } = require('child_process');
const fs = require('fs');
const path = require('path');

function pack(archive, folder, names) {
  const words = ['--create', '--dereference', '--ignore-failed-read', '--file', archive, '--directory', folder];
  execFileSync('tar', [...words, '--null', '--no-unquote', '--files-from', '-'], { input: names.map((name) => `./${name}\0`).join('') });
}

function unpack(archive, folder) {
  fs.mkdirSync(folder, { recursive: true });
  execFileSync('tar', ['--extract', '--file', archive, '--directory', folder, '--no-same-owner']);
}

// Packs the files, so many to a bundle, and gives the bundles' names.
function packBundles(places, names, size) {
  fs.mkdirSync(places.bundles, { recursive: true });
  fs.mkdirSync(places.answers, { recursive: true });
  const bundles = [];
  for (let start = 0; start < names.length; start += size) {
    const bundle = `${String(bundles.length + 1).padStart(6, '0')}.tar`;
    pack(path.join(places.bundles, bundle), places.folder, names.slice(start, start + size));
    bundles.push(bundle);
  }
  return bundles;
}

// Unpacks the results that came back. Bundles that were answered go.
function unpackAnswers(places) {
  for (const answer of fs.readdirSync(places.answers)) {
    unpack(path.join(places.answers, answer), places.results);
    fs.rmSync(path.join(places.answers, answer));
    fs.rmSync(path.join(places.bundles, answer), { force: true });
  }
}

module.exports = { pack, packBundles, unpack, unpackAnswers };
