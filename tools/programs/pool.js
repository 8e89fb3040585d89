'use strict';
// Runs tools side by side, by programs that stay.

const { spawn } = require('child_process');
const { RunFault } = require('../bolgwyr/faults.js');
const { SERVING, servedBy } = require('./index.js');
const { environmentFor } = require('./pages.js');
const { Served } = require('./served.js');

// The run of a program for a single input.
function runOnce(program, words, input) {
  const child = spawn(program, words, { env: environmentFor(input) });
  const pieces = { stdout: [], stderr: [] };
  child.stdout.on('data', (piece) => pieces.stdout.push(piece));
  child.stderr.on('data', (piece) => pieces.stderr.push(piece));
  // A program that refuses a tree needn't read all of it.
  child.stdin.on('error', () => {});
  child.stdin.end(input);
  return new Promise((resolve, reject) => {
    child.on('error', (error) => reject(new RunFault(`${program} can't be run: ${error.message}`)));
    child.on('close', (status, signal) => {
      resolve({ status, signal, stdout: Buffer.concat(pieces.stdout), stderr: Buffer.concat(pieces.stderr).toString('utf8') });
    });
  });
}

class Pool {
  // `size` is how many programs there are at most; `programs` tells where those of the crates stand; `enough`, how many requests wait at a
  // program before another one is started beside it: to start one takes longer than most answers do.
  constructor({ size, programs, enough = 1 }) {
    this.size = size;
    this.programs = programs;
    this.enough = enough;
    this.served = [];
  }

  // The program that has least to do, or one more where all have enough.
  idlest() {
    const best = this.served.reduce((one, other) => (other.load < one.load ? other : one), this.served[0]);
    if (best !== undefined && (best.waiting.length < this.enough || this.served.length === this.size)) {
      return best;
    }
    const more = new Served(this.programs[SERVING]);
    this.served.push(more);
    return more;
  }

  // The run of a tool on an input, in the form of `runTool`; `sent()` hears that a program that stays has the input.
  run(tool, words, input, sent) {
    const { crate, words: own } = servedBy(tool);
    const all = [...own, ...words];
    return crate === SERVING ? this.idlest().run(all, input, sent) : runOnce(this.programs[crate], all, input);
  }

  // Has as many programs stand ready as there may be.
  standReady() {
    while (this.served.length < this.size) {
      this.served.push(new Served(this.programs[SERVING]));
    }
    this.served.forEach((program) => program.stand());
  }

  // Drops all that programs that stay are asked.
  abandon() {
    this.served.forEach((program) => program.abandon());
  }

  close() {
    this.served.forEach((program) => program.close());
  }
}

module.exports = { Pool };
