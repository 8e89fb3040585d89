#!/usr/bin/env node
'use strict';
// Tries bolgwyr rename: texts before and after, refusals with their places, and the command itself. It needs the programs of the crates.

const { renamings } = require('./test-rename/renamings.js');
const { calls } = require('./test-rename/calls.js');
const { commands } = require('./test-rename/commands.js');
const { foreseen } = require('./test-rename/foreseen.js');

function main() {
  let failed = 0;
  let done = 0;
  const expect = (name, wanted, found) => {
    done += 1;
    if (wanted !== found) {
      failed += 1;
      process.stdout.write(`FAILED: ${name}\n  wanted: ${JSON.stringify(wanted)}\n  found:  ${JSON.stringify(found)}\n`);
    }
  };
  renamings(expect);
  foreseen(expect);
  calls(expect);
  commands(expect);
  process.stdout.write(`${done - failed} of ${done} cases of renaming as wanted\n`);
  return failed === 0 ? 0 : 1;
}

process.exitCode = main();
