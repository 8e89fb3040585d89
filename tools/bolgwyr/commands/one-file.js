'use strict';
// The commands that hand on one source file.

const { STATUS } = require('../faults.js');
const { nameOf } = require('./sources.js');

// Writes what is made of the file. A text that is at fault is a finding; a file that can't be read is none.
function writeOf(file, options, make) {
  const { say, tell } = require('../../analyse/output.js');
  const { Refusal } = require('../../analyse/refusal.js');
  const name = nameOf(file, options);
  try {
    const { bytes, status } = make(name);
    say(bytes);
    process.exitCode = status;
  } catch (error) {
    if (!(error instanceof Refusal)) {
      throw error;
    }
    tell(error.lineFor(name));
    process.exitCode = error.line === undefined ? STATUS.FAILED : STATUS.FOUND;
  }
}

module.exports = { writeOf };
