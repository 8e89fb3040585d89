'use strict';
// The nearest of several names to one that is none of them.

const LONGEST = 64;

// How many steps of comparison a run spends at most, so that hostile input costs no more than it is long.
const MOST_STEPS = 20_000_000;

const allowance = (length) => (length <= 3 ? 1 : length <= 7 ? 2 : 3);

// How many letters differ, are missing, are added or are swapped with their neighbours; `limit + 1` where it is more than `limit`.
function distance(a, b, limit) {
  if (Math.abs(a.length - b.length) > limit) {
    return limit + 1;
  }
  let before = [];
  let last = Array.from({ length: b.length + 1 }, (_, place) => place);
  for (let i = 1; i <= a.length; i += 1) {
    const row = [i];
    let least = i;
    for (let j = 1; j <= b.length; j += 1) {
      const differs = a[i - 1] === b[j - 1] ? 0 : 1;
      row[j] = Math.min(last[j] + 1, row[j - 1] + 1, last[j - 1] + differs);
      if (i > 1 && j > 1 && a[i - 1] === b[j - 2] && a[i - 2] === b[j - 1]) {
        row[j] = Math.min(row[j], before[j - 2] + 1);
      }
      least = Math.min(least, row[j]);
    }
    if (least > limit) {
      return limit + 1;
    }
    [before, last] = [last, row];
  }
  return last[b.length];
}

// Makes a function that gives the nearest name, or undefined where none is near; names that differ by capitals alone come first.
function nearest() {
  let steps = 0;
  return function nearestOf(name, names) {
    if (name.length > LONGEST) {
      return undefined;
    }
    let best;
    let limit = allowance(name.length);
    const small = name.toLowerCase();
    for (const other of names) {
      steps += 1 + other.length;
      if (steps > MOST_STEPS) {
        return best;
      }
      if (other.toLowerCase() === small && other !== name) {
        return other;
      }
      if (Math.abs(other.length - name.length) <= limit && other.length > 1) {
        steps += name.length * other.length;
        const far = distance(name, other, limit);
        if (far > 0 && far <= limit && far < name.length) {
          best = other;
          limit = far - 1;
        }
      }
    }
    return best;
  };
}

module.exports = { distance, nearest };
