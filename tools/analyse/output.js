'use strict';
// Standard output and standard error, written at once and whole.

const fs = require('fs');
const { RunFault } = require('../bolgwyr/faults.js');

// Writes all of it, also where a pipe is full. A reader that went away ends the command quietly.
function writeAll(descriptor, content) {
  const bytes = typeof content === 'string' ? Buffer.from(content, 'utf8') : content;
  let done = 0;
  while (done < bytes.length) {
    try {
      done += fs.writeSync(descriptor, bytes, done);
    } catch (error) {
      if (error.code === 'EPIPE') {
        process.exit(process.exitCode || 0);
      }
      if (error.code !== 'EAGAIN') {
        throw new RunFault(`the output can't be written: ${error.message}`);
      }
    }
  }
}

const say = (content) => writeAll(1, content);
const tell = (line) => writeAll(2, `${line}\n`);

module.exports = { say, tell };
