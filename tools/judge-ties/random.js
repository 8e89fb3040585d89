'use strict';
// Numbers that look random, the same for the same seed.

// Gives below(n): a whole number from 0 to n - 1.
function seeded(seed) {
  let state = seed >>> 0;
  function next() {
    state = (state + 0x6d2b79f5) >>> 0;
    let mixed = Math.imul(state ^ (state >>> 15), state | 1);
    mixed ^= mixed + Math.imul(mixed ^ (mixed >>> 7), mixed | 61);
    return ((mixed ^ (mixed >>> 14)) >>> 0) / 4294967296;
  }
  return (n) => Math.floor(next() * n);
}

module.exports = { seeded };
