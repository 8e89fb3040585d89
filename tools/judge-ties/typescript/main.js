#!/usr/bin/env node
'use strict';
// main.js [N] [SEED]: whether TypeScript's checker ties the references of N generated modules to the declarations that the tables tie them
// to, for all names that aren't tangled. Modules that it refuses for other reasons than names aren't counted. Ends with 1 where one differs.

const { START, END, TEXT } = require('../../edits/rows');
const { tablesOf, tangledByProgram } = require('../tables');
const { tiesByChecker } = require('./checker');
const { typedModule } = require('./generate');

const many = Number(process.argv[2] || 2000);
const first = Number(process.argv[3] || 1) * 1000000;

// Where the declarations of a symbol begin.
function declarationsOf(symbol) {
  return new Set(symbol === undefined ? [] : [symbol.span.start, ...symbol.redeclarations.map(({ span }) => span.start)]);
}

// How one reference of the tables agrees with the checker: all that it is tied to there belongs to its symbol here, and what is tied to
// nothing there is free here.
function isAgreed(ties, symbol) {
  const declared = declarationsOf(symbol);
  return ties.length === 0 ? symbol === undefined : ties.every((start) => declared.has(start));
}

function judged(source, sum) {
  const ties = tiesByChecker(source);
  if (ties === null) {
    sum.refused += 1;
    return;
  }
  const { json, rows, report } = tablesOf(source, { filename: 'module.ts', goal: 'module' });
  const tangled = tangledByProgram(json);
  sum.modules += 1;
  sum.names += new Set(report.symbols.map(({ name }) => name)).size;
  sum.tangled += tangled.size;
  for (const reference of report.references) {
    const row = rows[reference.node];
    const at = ties.get(row[START]);
    const isJudged = at !== undefined && !tangled.has(row[TEXT]);
    sum.references += isJudged ? 1 : 0;
    const symbol = reference.symbol === null ? undefined : report.symbols[reference.symbol];
    if (isJudged && !isAgreed(at, symbol)) {
      sum.different += 1;
      console.log(`differs: ${row[TEXT]} at ${row[START]}-${row[END]}: checker [${at}], tables [${[...declarationsOf(symbol)]}]\n  ${source}`);
    }
  }
}

const sum = { modules: 0, refused: 0, names: 0, tangled: 0, references: 0, different: 0 };
for (let seed = first; sum.modules < many; seed += 1) {
  judged(typedModule(seed), sum);
}
console.log(`${sum.modules} modules (${sum.refused} refused), ${sum.names} names, ${sum.tangled} tangled, ${sum.references} references of others, ${sum.different} differ`);
process.exitCode = sum.different === 0 ? 0 : 1;
