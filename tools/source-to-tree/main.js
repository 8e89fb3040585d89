'use strict';
// Reads a source file and writes its tree's JSON to standard output.

const fs = require('fs');
const { GOALS, PARSERS } = require('./choices');
const { treeOf, Refusal } = require('./convert');
const { readText } = require('./input');

// An ESTree of another tool is taken, too.
const CHOICES = { '--parser': [...PARSERS, 'estree'], '--goal': GOALS, '--parsers': null, '--source': null };
const [PARSER, GOAL] = ['--parser', '--goal'].map((word) => `[${word} ${CHOICES[word].join('|')}]`);
const USAGE = `usage: main.js ${PARSER} ${GOAL} [--parsers FOLDER] [--source FILE] [--time] FILE`;

function optionsOf(words) {
  const options = { time: false };
  for (let i = 0; i < words.length; i++) {
    const word = words[i];
    if (word === '--time') options.time = true;
    else if (Object.hasOwn(CHOICES, word)) {
      const choice = words[++i];
      if (choice === undefined || (CHOICES[word] && !CHOICES[word].includes(choice))) return null;
      options[word.slice(2)] = choice;
    } else if (word.startsWith('--') || options.file !== undefined) return null;
    else options.file = word;
  }
  return options.file === undefined ? null : options;
}

// Writes all bytes; a pipe may take a part, none for a moment, or nobody may read it any more.
function writeOut(bytes) {
  for (let at = 0; at < bytes.length;) {
    try {
      at += fs.writeSync(1, bytes, at);
    } catch (error) {
      if (error.code === 'EPIPE') return;
      if (error.code !== 'EAGAIN') throw error;
    }
  }
}

function report(file, error) {
  process.stderr.write(`${error.lineFor(file)}\n`);
  return 1;
}

// The source file and, for an ESTree in a file of its own, the tree: its source is the file of that name without `.json`.
function inputOf({ file, parser, source }) {
  if (parser !== 'estree') return { text: readText(file), filename: file };
  const filename = source || file.replace(/\.json$/, '');
  if (filename === file) throw new Refusal('an ESTree ends in .json, or comes with --source');
  return { text: readText(filename), filename, tree: readTree(file) };
}

function readTree(file) {
  try {
    return JSON.parse(readText(file));
  } catch (error) {
    throw error instanceof Refusal ? error : new Refusal(`not JSON: ${error.message}`);
  }
}

function convert(options) {
  const clock = {};
  const { text, filename, tree } = inputOf(options);
  const { parser, goal, parsers } = options;
  const { json } = treeOf(text, { filename, parser, goal, parsers, tree, clock });
  const started = performance.now();
  writeOut(json);
  clock.writing = performance.now() - started;
  if (options.time) {
    const times = Object.entries(clock).map(([part, ms]) => `${part} ${ms.toFixed(1)} ms`);
    process.stderr.write(`${times.join(', ')}\n`);
  }
  return 0;
}

function main(words) {
  const options = optionsOf(words);
  if (options === null) {
    process.stderr.write(`${USAGE}\n`);
    return 2;
  }
  try {
    return convert(options);
  } catch (error) {
    if (error instanceof Refusal) return report(options.file, error);
    throw error;
  }
}

process.exitCode = main(process.argv.slice(2));
