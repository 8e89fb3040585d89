'use strict';
// Counts what passed and prints what failed.

class Tally {
  constructor() {
    this.passed = 0;
    this.failed = 0;
  }

  check(name, ok, why = '') {
    if (ok) this.passed += 1;
    else {
      this.failed += 1;
      console.log(`FAILED: ${name}${why === '' ? '' : `: ${why}`}`);
    }
    return ok;
  }
}

module.exports = { Tally };
