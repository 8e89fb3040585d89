'use strict';
// Colours, which stand in a terminal alone.

const { load } = require('../source-to-tree/load.js');

// Whether a stream may have colours: a terminal's, unless NO_COLOR or --no-color says otherwise.
function hasColour(stream, options = {}) {
  return options.color !== false && stream.isTTY === true && !process.env.NO_COLOR && process.env.TERM !== 'dumb';
}

const PLAIN = (text) => text;

// What paints the parts of a message; without colours they stay as they are.
function paints(colour) {
  if (!colour) {
    return { place: PLAIN, quiet: PLAIN, error: PLAIN, warning: PLAIN, good: PLAIN };
  }
  const chalk = load('chalk');
  const { bold, dim, red, yellow, green } = new (chalk.Chalk ?? chalk.Instance)({ level: 1 });
  return { place: bold, quiet: dim, error: red, warning: yellow, good: green };
}

module.exports = { hasColour, paints };
