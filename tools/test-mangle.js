#!/usr/bin/env node
'use strict';
// Tries bolgwyr mangle: texts before and after, refusals with their places, programs that run as before, and the command itself.
// It needs the programs of the crates.

const { calls } = require('./test-mangle/calls.js');
const { commands } = require('./test-mangle/commands.js');
const { runs } = require('./test-mangle/runs.js');

function main() {
  let failed = 0;
  let done = 0;
  const expect = (name, wanted, found) => {
    done += 1;
    if (wanted !== found) {
      failed += 1;
      process.stdout.write(`FAILED: ${name}\n  wanted: ${JSON.stringify(wanted)}\n  found:  ${JSON.stringify(found)}\n`);
    }
  };
  calls(expect);
  runs(expect);
  commands(expect);
  process.stdout.write(`${done - failed} of ${done} cases of mangling as wanted\n`);
  return failed === 0 ? 0 : 1;
}

process.exitCode = main();
