#!/usr/bin/env node
'use strict';
// Judges `bolgwyr link` by others' modules and by Node:
//   clean     nothing is found in packages that are installed and whole
//   outlines  the linker says the same of whole trees as of outlines
//   spoiled   names and paths that are spoiled in copies of them are told, each at its place, and nothing else
//   node      Node's own linking agrees on small random projects
// usage: judge-link.js [clean|outlines|spoiled|node].. [--seed N] [--count N]

const { PARTS } = require('./judge-link/index.js');

function numberBehind(words, word, otherwise) {
  const place = words.indexOf(word);
  return place === -1 ? otherwise : Number(words.splice(place, 2)[1]);
}

function main(words) {
  const settings = { seed: numberBehind(words, '--seed', 1), count: numberBehind(words, '--count', undefined) };
  const asked = words.length === 0 ? Object.keys(PARTS) : words;
  const failed = asked.filter((name) => !PARTS[name](settings));
  process.exitCode = failed.length === 0 ? 0 : 1;
}

main(process.argv.slice(2));
