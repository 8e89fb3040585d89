'use strict';
// The tests of the language, test262: those that a parser must take, and those with an early error.

const fs = require('fs');
const { Corpus, sampleOf } = require('./corpora');

const FRONT = /\/\*---([^]*?)---\*\//;

// What the head of a test says: its goal, and whether an early error is in it.
function headOf(source) {
  const found = FRONT.exec(source);
  if (found === null) return null;
  const flags = /^\s*flags:\s*\[([^\]]*)\]/m.exec(found[1]) || /^\s*flags:\s*\n((?:\s+-.*\n?)+)/m.exec(found[1]);
  const isNegative = /^\s*negative:/m.test(found[1]) && /^\s+phase:\s*(?:parse|early)\s*$/m.test(found[1]);
  return { goal: flags !== null && /\bmodule\b/.test(flags[1]) ? 'module' : 'script', kind: isNegative ? 'negative' : 'positive' };
}

const isTest = (file) => file.endsWith('.js') && !file.endsWith('_FIXTURE.js');

function checkTest262(folder, { ways, shown, trees, ...sample }) {
  const corpus = new Corpus({ ways, shown, trees });
  for (const file of sampleOf(folder, isTest, sample)) {
    const source = fs.readFileSync(file, 'utf8');
    const head = headOf(source);
    if (head !== null) corpus.add(file, source, head.kind, { filename: file, goal: head.goal });
  }
  corpus.print();
}

module.exports = { checkTest262 };
