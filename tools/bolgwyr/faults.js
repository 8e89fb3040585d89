'use strict';
// What ends a command, and the statuses of all commands.

// 0: nothing found. 1: findings. 2: words that aren't known or don't fit. 3: something could not be read or run.
const STATUS = { CLEAN: 0, FOUND: 1, USAGE: 2, FAILED: 3 };

// Words that aren't known, or that don't fit together.
class UsageFault extends Error {
  constructor(message) {
    super(message);
    this.status = STATUS.USAGE;
  }
}

// Something could not be read or run, so that there is no answer.
class RunFault extends Error {
  constructor(message) {
    super(message);
    this.status = STATUS.FAILED;
  }
}

module.exports = { RunFault, STATUS, UsageFault };
