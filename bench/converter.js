'use strict';
// How long the conversion of acorn's trees takes by the side of acorn's own parsing: processor time of both, turn and turn
// about in one run. Each file's line has the medians in milliseconds and their ratio.
// usage: node bench/converter.js [--rounds N] [FILES..]

const { readText } = require('../tools/source-to-tree/input');
const { parsersFor } = require('../tools/source-to-tree/parsers');
const { write } = require('../tools/source-to-tree/once');
const acorn = require('../tools/source-to-tree/ways/acorn');

const FILES = ['/usr/share/nodejs/acorn/dist/acorn.js', '/usr/share/nodejs/lodash/lodash.js', '/usr/share/nodejs/typescript/lib/tsc.js'];
const ROUNDS = 9;

function timed(call) {
  const before = process.cpuUsage();
  const value = call();
  const { user, system } = process.cpuUsage(before);
  return { value, ms: (user + system) / 1000 };
}

const median = (list) => list.sort((a, b) => a - b)[list.length >> 1];

function measure(file, rounds) {
  const text = readText(file);
  const [parser] = parsersFor('acorn', __dirname);
  const request = { source: text, text, filename: file, lang: 'js', goal: undefined, folder: __dirname, parser };
  const times = { parsing: [], conversion: [] };
  for (let round = 0; round < rounds; round++) {
    const parsed = timed(() => acorn.read(text, request));
    const written = timed(() => write(acorn, parsed.value, request));
    times.parsing.push(parsed.ms);
    times.conversion.push(written.ms);
  }
  return { parsing: median(times.parsing), conversion: median(times.conversion) };
}

function main(words) {
  const rounds = words[0] === '--rounds' ? Number(words.splice(0, 2)[1]) : ROUNDS;
  for (const file of words.length > 0 ? words : FILES) {
    const { parsing, conversion } = measure(file, rounds);
    console.log(`${file}: parsing ${parsing.toFixed(1)} ms, conversion ${conversion.toFixed(1)} ms, ratio ${(conversion / parsing).toFixed(2)}`);
  }
}

main(process.argv.slice(2));
