'use strict';
// Numbers that a seed decides.

// Gives a function for whole numbers from 0 to below a bound.
function randomFrom(seed) {
  let state = seed >>> 0;
  return (bound) => {
    state = (state + 0x6d2b79f5) >>> 0;
    let mixed = Math.imul(state ^ (state >>> 15), state | 1);
    mixed ^= mixed + Math.imul(mixed ^ (mixed >>> 7), mixed | 61);
    return ((mixed ^ (mixed >>> 14)) >>> 0) % bound;
  };
}

function shuffled(list, random) {
  const left = list.slice();
  for (let last = left.length - 1; last > 0; last -= 1) {
    const other = random(last + 1);
    [left[last], left[other]] = [left[other], left[last]];
  }
  return left;
}

module.exports = { randomFrom, shuffled };
