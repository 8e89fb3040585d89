#!/usr/bin/env node
'use strict';
// language-main.js [N] [SEED]: whether TypeScript's checker ties the references of N generated modules to what they mean by
// crates/typescript_ties. Names that stand for an import aren't counted: what an alias stands for isn't looked at there. Ends with 1 where
// one differs.

const { treeOf } = require('../../source-to-tree/convert');
const { tiesByChecker } = require('./checker');
const { typedModule } = require('./generate');
const { meaningsOf } = require('./language');

const many = Number(process.argv[2] || 2000);
const first = Number(process.argv[3] || 1) * 1000000;

const within = (some, all) => some.every((start) => all.includes(start));

// Both mean nothing, or all declarations of one are among those of the other. The checker has one symbol for a type parameter and what the
// body of its function declares, and for the type parameters of interfaces of one name; and two for what a module exports and what it keeps
// under one name.
const agree = (here, there) => (here.length === 0 || there.length === 0 ? here.length === there.length : within(here, there) || within(there, here));

function judged(source, sum) {
  const { ties, unknown } = tiesByChecker(source, { wide: true });
  if (ties === null) {
    sum.refused += 1;
    return;
  }
  sum.modules += 1;
  const { rows } = JSON.parse(treeOf(source, { filename: 'module.ts', goal: 'module' }).json);
  for (const { name, start, declarations } of meaningsOf(rows, true)) {
    const here = declarations.map((one) => one.start);
    const there = unknown.get(start) === name.length ? [] : ties.get(start);
    if (there === undefined || declarations.some(({ sort }) => sort === 'Import')) continue;
    sum.references += 1;
    sum.meaningless += there.length === 0 ? 1 : 0;
    if (!agree(here, there)) {
      sum.different += 1;
      console.log(`differs: ${name} at ${start}: checker [${there}], definitions [${here}]\n  ${source}`);
    }
  }
}

const sum = { modules: 0, refused: 0, references: 0, meaningless: 0, different: 0 };
for (let seed = first; sum.modules < many; seed += 1) judged(typedModule(seed, { wide: true }), sum);
console.log(`${sum.modules} modules (${sum.refused} refused), ${sum.references} references, ${sum.meaningless} of them mean nothing, ${sum.different} differ`);
process.exitCode = sum.different === 0 ? 0 : 1;
