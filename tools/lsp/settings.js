'use strict';
// The settings of a file, from the bolgwyr.json in its folder or around it. They are read anew each time, so that a change of them
// counts at once.

const { Configs } = require('../check/config.js');
const { NOTHING, settingsOf } = require('../check/settings.js');

function settingsOfFile(name) {
  const config = new Configs().of(name);
  return { ...settingsOf(config, NOTHING), isIgnored: config.ignores(name) };
}

module.exports = { settingsOfFile };
