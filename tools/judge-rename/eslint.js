'use strict';
// The scopes of eslint-scope as a second opinion: what each reference of a JavaScript text is tied to.

const { EslintScopes } = require('../test-sources/eslint-scope.js');

// Each reference as `place -> place of the first declaration`, in places that `placeBefore` gives; free ones with their names.
function tiesOf(source, goal, placeBefore) {
  let theirs;
  try {
    theirs = new EslintScopes(source, goal);
  } catch (error) {
    if (error instanceof SyntaxError) {
      return null;
    }
    throw error;
  }
  const ties = new Map();
  for (const [start, { name, starts }] of theirs.references()) {
    const declared = starts === null ? `free ${name}` : Math.min(...[...starts].map(placeBefore));
    ties.set(placeBefore(start), declared);
  }
  return ties;
}

// The first reference that is tied otherwise in the renamed text, in words, or null; undefined where there is no second opinion.
function tiedOtherwise(before, after, goal, placeBefore) {
  const old = tiesOf(before, goal, (place) => place);
  const now = tiesOf(after, goal, placeBefore);
  if (old === null || now === null) {
    return undefined;
  }
  for (const [place, declared] of now) {
    if (old.get(place) !== declared) {
      return `eslint-scope: byte ${place} is tied to ${declared}, was tied to ${old.get(place)}`;
    }
  }
  return old.size === now.size ? null : `eslint-scope: ${now.size} references, there were ${old.size}`;
}

module.exports = { tiedOtherwise };
