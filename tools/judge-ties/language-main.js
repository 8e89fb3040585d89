#!/usr/bin/env node
'use strict';
// language-main.js [N] [SEED]: judges N programs by V8 and by the tables. Ends with 1 where one differs.

const { differing } = require('./agreement');
const { program } = require('./generate');
const headers = require('./headers');
const { meanings, clashes } = require('./language');
const { told, toldAgain } = require('./run');
const { tablesOf, tangledByProgram } = require('./tables');
const { withFreshNames } = require('./variables');
const { Refusal } = require('../source-to-tree/convert');

const many = Number(process.argv[2] || 2000);
const seed = Number(process.argv[3] || 1) * 1000000;

function tablesOrNothing(source) {
  try {
    return tablesOf(source);
  } catch (error) {
    if (error instanceof Refusal) return null;
    throw error;
  }
}

// Whether the program runs the same with fresh names; null where V8 refuses it, it takes too long, or it calls `eval`.
function runsTheSame(source, rows) {
  const before = source.includes('eval') ? null : told(source);
  if (before === null) return null;
  return toldAgain(withFreshNames(source, meanings(rows, { asV8: true }))) === before;
}

// The references of names that aren't tangled, and of which no `var` clashes, on which the tables differ.
function falsely(tables) {
  const language = meanings(tables.rows);
  const tangled = tangledByProgram(tables.json);
  const isTangled = ({ name, meaning }) => tangled.has(name) || name === 'arguments' || (meaning !== null && meaning.identifiers === null);
  const counted = language.references.filter((reference) => !isTangled(reference));
  const clash = new Set(counted.map(({ name }) => name).filter((name) => clashes(language.all, name)));
  const differ = new Set(differing(tables, language).map(({ node }) => node));
  return { references: counted.length, wrong: counted.filter(({ node, name }) => differ.has(node) && !clash.has(name)) };
}

const sum = { programs: 0, run: 0, references: 0, unlike: 0, wrong: 0 };
for (let at = seed; sum.programs < many; at += 1) {
  const source = at % 2 === 0 ? program(at) : headers.program(at);
  const tables = tablesOrNothing(source);
  if (tables === null) continue;
  sum.programs += 1;
  const same = runsTheSame(source, tables.rows);
  if (same !== null) sum.run += 1;
  if (same === false) {
    sum.unlike += 1;
    console.log(`seed ${at}: fresh names change the program\n--- ${source}`);
  }
  const { references, wrong } = falsely(tables);
  sum.references += references;
  sum.wrong += wrong.length;
  for (const { node, name } of wrong) console.log(`seed ${at}: ${name} at node ${node}\n--- ${source}`);
}

console.log(`${sum.programs} programs; ${sum.run} run with fresh names, ${sum.unlike} differ; ${sum.references} references of names that aren't tangled, ${sum.wrong} differ`);
process.exitCode = sum.unlike + sum.wrong === 0 ? 0 : 1;
