'use strict';
// Counts what is as it should be, and tells the rest.

const tally = { tried: 0, failed: 0 };

// A pattern is wanted somewhere in a text, all else whole.
function expect(name, found, wanted) {
  const same = wanted instanceof RegExp ? wanted.test(found) : JSON.stringify(found) === JSON.stringify(wanted);
  tally.tried += 1;
  if (!same) {
    tally.failed += 1;
    console.log(`FAILED: ${name}\n  wanted: ${wanted instanceof RegExp ? wanted : JSON.stringify(wanted)}\n  found:  ${JSON.stringify(found)}`);
  }
}

module.exports = { expect, tally };
