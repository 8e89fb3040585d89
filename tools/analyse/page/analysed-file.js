'use strict';
// A file, or a text, with all that a page shows of it.

const { askAbout, readAnalysis, textTree } = require('../analysis.js');
const { readText } = require('../files.js');
const { Answers, unusedSymbols } = require('../../check/answers.js');
const { Configs } = require('../../check/config.js');
const { findingsOf } = require('../../check/findings.js');
const { WORDS, answersIn, toolsFor } = require('../../check/requests.js');
const { PROGRAMS } = require('../../check/rules.js');
const { NOTHING, settingsOf } = require('../../check/settings.js');
const { isProperty } = require('../../check/unused.js');

// The settings by which bolgwyr check would check the file.
const checkSettings = (file, configs) => settingsOf(configs.of(file), NOTHING);

// The numbers of the symbols that the page shows as unused.
function unusedOf({ report }, tree, names) {
  const found = [...unusedSymbols(names.toString('utf8'))];
  return new Set(found.filter((id) => !isProperty(tree, report.symbols[id].node)));
}

// The answers of report and lint of names on a tree, as bolgwyr check asks for them.
function answersOn(tree) {
  return answersIn(Object.fromEntries(toolsFor(PROGRAMS).map((tool) => [tool, askAbout(tree, tool, WORDS[tool]).stdout])));
}

// Settings: `file`, the name for people; `parser`, `goal`, `tree`, as `textTree` knows them; `configs`.
function analysedText(text, { file, parser, goal, tree: isTree = false, configs = new Configs() }) {
  const tree = textTree(text, { file, parser, goal, tree: isTree });
  const { report, names } = answersOn(tree);
  const analysis = readAnalysis({ file, tree, words: WORDS.report, bytes: report });
  const answers = new Answers({ text: analysis.positions.text, tree, names, report });
  const settings = checkSettings(file, configs);
  return { analysis, tree: tree.value, unused: unusedOf(analysis, tree, names), findings: findingsOf(answers, settings), settings };
}

const analysedFile = (file, settings) => analysedText(readText(file), settings);

module.exports = { analysedFile, analysedText };
