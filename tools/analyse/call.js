'use strict';
// The call `analyse` of the module.

const { analyseText, readAnalysis } = require('./analysis.js');
const { jsonObject } = require('./json.js');

// Words for the report program, by the options that ask for them.
const WORDS = ['check', 'nodes', 'classes', 'stats'];

// The tables of a text as one object; a text that no parser reads throws a Refusal.
function analyse(text, options = {}) {
  const { file = 'input.js', parser, goal } = options;
  const words = WORDS.filter((name) => options[name]).map((name) => `--${name}`);
  return jsonObject(readAnalysis(analyseText(text, { file, words, parser, goal })));
}

module.exports = { analyse };
