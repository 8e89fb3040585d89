#!/usr/bin/env node
'use strict';
// main.js [N] [SEED]: judges N programs. Ends with 1 where one differs.

const { judgeMany } = require('./judge');
const { tangledByProgram } = require('./tables');

const many = Number(process.argv[2] || 20000);
const seed = Number(process.argv[3] || 1);

function tell(at, { source, other, before, after }) {
  console.log(`seed ${at}: the renamed program differs\n--- ${source}\n+++ ${other}\n--- ${before}\n+++ ${after}`);
}

const sum = judgeMany(many, seed * 1000000, ({ json }) => tangledByProgram(json), tell);
console.log(`${sum.programs} programs (${sum.refused} refused), ${sum.names} names, ${sum.tangled} tangled, ${sum.different} differ`);
process.exitCode = sum.different === 0 ? 0 : 1;
