'use strict';
// Runs the server on standard input and output.

const { Server } = require('./server.js');

const NO_LOG = () => {};

function logTo(stream) {
  const started = Date.now();
  return (line) => stream.write(`${String(Date.now() - started).padStart(7)} ${line}\n`);
}

// Gives the status that the command ends with.
function run({ log }) {
  const { stdin, stdout, stderr } = process;
  // Standard output is for frames alone.
  console.log = console.error;
  return new Promise((resolve) => {
    const server = new Server({
      output: stdout,
      ended: (status) => stdout.write('', () => resolve(status)),
      log: log ? logTo(stderr) : NO_LOG,
    });
    stdin.on('data', (chunk) => server.push(chunk));
    stdin.on('end', () => server.end());
    stdout.on('error', () => process.exit(1));
  });
}

module.exports = { run };
