'use strict';
// From places in a changed text to places in the text before.

// `changes` are in order, each `{ start, end, size }` of what is replaced and how long it is then. A place within a change is its start.
function backwards(changes) {
  const starts = [];
  const shifts = [0];
  let shift = 0;
  for (const { start, end, size } of changes) {
    starts.push(start + shift);
    shift += size - (end - start);
    shifts.push(shift);
  }
  // How many changes begin at the place or before it.
  const begunAt = (place) => {
    let low = 0;
    let high = starts.length;
    while (low < high) {
      const middle = (low + high) >>> 1;
      if (starts[middle] <= place) {
        low = middle + 1;
      } else {
        high = middle;
      }
    }
    return low;
  };
  return (place) => {
    const begun = begunAt(place);
    const isWithin = begun > 0 && place < starts[begun - 1] + changes[begun - 1].size;
    return isWithin ? changes[begun - 1].start : place - shifts[begun];
  };
}

module.exports = { backwards };
