'use strict';
// The call `check` of the module.

const { checkText } = require('./check.js');
const { readConfig } = require('./config.js');
const { NOTHING, readOnly, settingsOf } = require('./settings.js');

// The settings of options, which have the form of a bolgwyr.json besides the file's own.
function settingsFrom({ file = 'input.js', parser, goal, only, ...config }) {
  return { ...settingsOf(readConfig(config), { ...NOTHING, only: only === undefined ? null : readOnly(only) }), file, parser, goal };
}

// The findings of a text, in order of their places.
function check(text, options = {}) {
  return checkText(text, settingsFrom(options));
}

module.exports = { check };
