'use strict';
// Whether a renamed text has the early errors that the text had, but for the names in their messages.

const withoutNames = (message) => message.replace(/`[^`]*`|'[^']*'|"[^"]*"/g, '``');

const keyOf = ({ code, message, labels }, placeOf) => {
  const places = labels.map(({ span }) => placeOf(span.start));
  return `${code} ${withoutNames(message)} ${places.join(' ')}`;
};

function tally(diagnostics, placeOf) {
  const counts = new Map();
  for (const diagnostic of diagnostics) {
    const key = keyOf(diagnostic, placeOf);
    counts.set(key, (counts.get(key) || 0) + 1);
  }
  return counts;
}

// A diagnostic with no counterpart among the others, or null.
function alone(diagnostics, counts, placeOf) {
  for (const diagnostic of diagnostics) {
    const key = keyOf(diagnostic, placeOf);
    const left = counts.get(key) || 0;
    if (left === 0) {
      return diagnostic;
    }
    counts.set(key, left - 1);
  }
  return null;
}

// `placeBefore` gives a byte's place in the text before. Gives `{ diagnostic, isNew }`, or null where the errors are the same.
function changedError(before, after, placeBefore) {
  const same = (byte) => byte;
  const added = alone(after.diagnostics, tally(before.diagnostics, same), placeBefore);
  if (added !== null) {
    return { diagnostic: added, isNew: true };
  }
  const lost = alone(before.diagnostics, tally(after.diagnostics, placeBefore), same);
  return lost === null ? null : { diagnostic: lost, isNew: false };
}

module.exports = { changedError };
