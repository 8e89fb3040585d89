'use strict';
// The lines of a diff in a terminal.

const { paints } = require('../bolgwyr/colour.js');
const { visible } = require('../analyse/visible.js');

const COLOURS = [[/^(?:---|\+\+\+) /, 'place'], [/^@@/, 'quiet'], [/^-/, 'error'], [/^\+/, 'good']];

// The same lines for a terminal. Names of files stand in the first two.
function coloured(lines) {
  const paint = paints(true);
  return lines.map((line, at) => {
    const found = COLOURS.find(([start], place) => start.test(line) && (place > 0 || at < 2));
    return found === undefined ? visible(line) : paint[found[1]](visible(line));
  });
}

module.exports = { coloured };
