#!/usr/bin/env node
'use strict';
// Whether mangled programs tell the same: N generated sloppy programs of a few names in nested functions, blocks, catch clauses, bodies of
// `if`, cases, classes and headers (tools/judge-ties/generate.js), each mangled with --toplevel and run. Those that V8 refuses, and those
// with a tangled name that would change, which are refused, aren't counted. Ends with 1 where one differs.
// usage: programs.js [N] [SEED]

const { program } = require('../judge-ties/generate');
const { told, toldAgain } = require('../judge-ties/run');
const { Refusal } = require('../source-to-tree/convert');
const { RenameRefusal, mangle } = require('../mangle/index');

const many = Number(process.argv[2] || 300);
const first = Number(process.argv[3] || 1) * 1000000;

// Names that can get shorter.
const LONG = { a: 'alpha', b: 'beta', f: 'factor' };

// The mangled text, or null where it is refused.
function mangled(source) {
  try {
    return mangle(source, { file: 'program.js', goal: 'script', toplevel: true }).text;
  } catch (error) {
    if (error instanceof RenameRefusal || error instanceof Refusal) return null;
    throw error;
  }
}

const sum = { run: 0, refused: 0, different: 0 };
for (let seed = first; sum.run < many; seed += 1) {
  const source = program(seed).replace(/\b[abf]\b/g, (name) => LONG[name]);
  const before = told(source);
  const text = before === null ? null : mangled(source);
  if (text === null) {
    sum.refused += 1;
    continue;
  }
  sum.run += 1;
  const after = toldAgain(text);
  if (after !== before) {
    sum.different += 1;
    console.log(`seed ${seed}: the mangled program differs\n--- ${source}\n+++ ${text}\n--- ${before}\n+++ ${after}`);
  }
}
console.log(`${sum.run} programs (${sum.refused} refused), ${sum.different} differ`);
process.exitCode = sum.different === 0 ? 0 : 1;
