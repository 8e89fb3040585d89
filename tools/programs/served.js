'use strict';
// A program that stays and answers requests, one behind the other: to start a process takes longer than most answers do.

const { spawn } = require('child_process');
const { RunFault } = require('../bolgwyr/faults.js');
const { AnswerReader, requestHead } = require('./frames.js');
const { environmentFor } = require('./pages.js');

const NOTHING = Buffer.alloc(0);
const UNHEARD = () => {};
const START = 0.5; // requests

class Served {
  constructor(program) {
    this.program = program;
    this.waiting = []; // requests that have no answer yet, in order
    this.child = null;
  }

  // The run of a tool on an input, in the form of `runTool`; `sent()` hears that the program has the input.
  run(words, input, sent = UNHEARD) {
    return new Promise((resolve, reject) => {
      const request = { words, input, sent, resolve, reject };
      this.waiting.push(request);
      if (this.child === null) {
        this.start();
      } else {
        this.send(request);
      }
    });
  }

  // How many requests a further one waits for. To start the program is less than an answer.
  get load() {
    return this.waiting.length + (this.child === null ? START : 0);
  }

  // Has the program stand ready for the first request.
  stand() {
    if (this.child === null) {
      this.start();
    }
  }

  // Starts the program, which gets all that waits.
  start() {
    const child = spawn(this.program, ['serve'], { env: environmentFor(this.waiting[0]?.input ?? NOTHING) });
    const errors = [];
    const isMine = () => this.child === child;
    const reader = new AnswerReader((answer) => isMine() && this.take(answer));
    child.stdout.on('data', (piece) => reader.push(piece));
    child.stderr.on('data', (piece) => errors.push(piece));
    // A program that ends needn't have read all.
    child.stdin.on('error', () => {});
    child.on('error', (error) => isMine() && this.fail(new RunFault(`${this.program} can't be run: ${error.message}`)));
    const ended = (status, signal) => this.ended({ status, signal, stdout: NOTHING, stderr: Buffer.concat(errors).toString('utf8') });
    child.on('close', (status, signal) => isMine() && ended(status, signal));
    this.child = child;
    this.waiting.forEach((request) => this.send(request));
  }

  // What is asked in one go is written in one.
  send({ words, input, sent }) {
    const { stdin } = this.child;
    if (stdin.writableCorked === 0) {
      stdin.cork();
      process.nextTick(() => stdin.uncork());
    }
    stdin.write(requestHead(words, input));
    stdin.write(input, sent);
  }

  take({ status, stdout, stderr }) {
    this.waiting.shift()?.resolve({ status, signal: null, stdout, stderr: stderr.toString('utf8') });
  }

  // How the program ended is the answer to the request that it was at; those behind it go to another one.
  ended(run) {
    this.child = null;
    const request = this.waiting.shift();
    if (request === undefined) {
      return;
    }
    if (run.status === 0) {
      request.reject(new RunFault(`${this.program} ended without an answer`));
    } else {
      request.resolve(run);
    }
    if (this.waiting.length > 0) {
      this.start();
    }
  }

  // Ends all that waits.
  fail(fault) {
    this.waiting.splice(0).forEach(({ reject }) => reject(fault));
  }

  // Drops what waits, and ends the program that is at work: nobody wants the answers any more.
  abandon() {
    if (this.waiting.length > 0) {
      const { child } = this;
      this.child = null;
      this.fail(new RunFault('nobody wants the answer any more'));
      child.kill('SIGKILL');
    }
  }

  // Has the program end once it has answered what waits.
  close() {
    this.child?.stdin.end();
  }
}

module.exports = { Served };
