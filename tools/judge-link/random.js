'use strict';
// Random choices that a seed repeats.

function randomOf(seed) {
  let state = seed >>> 0;
  // mulberry32
  const next = () => {
    state = (state + 0x6d2b79f5) >>> 0;
    let mixed = Math.imul(state ^ (state >>> 15), state | 1);
    mixed ^= mixed + Math.imul(mixed ^ (mixed >>> 7), mixed | 61);
    return ((mixed ^ (mixed >>> 14)) >>> 0) / 4294967296;
  };
  const below = (count) => Math.floor(next() * count);
  return {
    below,
    chance: (share) => next() < share,
    pick: (list) => list[below(list.length)],
    // So many of the list, in its order.
    some: (list, count) => {
      const left = list.map((_, place) => place);
      const taken = [];
      while (taken.length < count && left.length > 0) {
        taken.push(left.splice(below(left.length), 1)[0]);
      }
      return taken.sort((a, b) => a - b).map((place) => list[place]);
    },
  };
}

module.exports = { randomOf };
