'use strict';
// How far a run is, on standard error of a terminal alone.

const EVERY_MS = 100;

// Counts files; `end` takes the line away.
class Progress {
  constructor(all, stream = process.stderr) {
    this.all = all;
    this.stream = stream.isTTY === true ? stream : null;
    this.done = 0;
    this.last = Date.now();
  }

  step() {
    this.done += 1;
    if (this.stream !== null && Date.now() - this.last >= EVERY_MS) {
      this.last = Date.now();
      this.stream.write(`\r${this.done} of ${this.all} files`);
    }
  }

  end() {
    this.stream?.write('\r\u001b[K');
  }
}

module.exports = { Progress };
