'use strict';
// The findings of one text.

const { askAbout, explain } = require('../analyse/analysis.js');
const { checkSize } = require('../analyse/files.js');
const { RefusedTree, answered } = require('../analyse/program.js');
const { Refusal } = require('../analyse/refusal.js');
const { convertText } = require('../analyse/tree.js');
const { Answers } = require('./answers.js');
const { findingsOf, syntaxFinding } = require('./findings.js');
const { WORDS, answersIn, toolsFor } = require('./requests.js');
const { programsFor } = require('./rules.js');

function treeOf(text, settings) {
  const tree = convertText(text, settings);
  checkSize(tree.json.length, 'its tree');
  return tree;
}

// The findings by the runs of some tools, in their order.
function judge(text, tree, tools, runs, settings) {
  const written = Object.fromEntries(tools.map((tool, at) => [tool, runs[at].stdout]));
  return findingsOf(new Answers({ text, tree, ...answersIn(written) }), settings);
}

// What a refusal comes to: a finding where there is a place, else the file has no answer.
function refused(error) {
  if (!(error instanceof Refusal) || error.line === undefined) {
    throw error;
  }
  return [syntaxFinding(error)];
}

// The text's findings, or that of a text that no parser reads. Settings: those of settings.js, and `file`.
function checkText(text, settings) {
  try {
    const tree = treeOf(text, settings);
    const tools = toolsFor(programsFor(settings.rules));
    return judge(text, tree, tools, tools.map((tool) => askAbout(tree, tool, WORDS[tool])), settings);
  } catch (error) {
    return refused(error);
  }
}

function sound(tree, tool, run) {
  try {
    return answered(tool, run);
  } catch (error) {
    throw error instanceof RefusedTree ? explain(error.refusal, tree) : error;
  }
}

// The same by a pool of programs.
async function checkBy(pool, text, settings) {
  try {
    const tree = treeOf(text, settings);
    const tools = toolsFor(programsFor(settings.rules));
    const runs = await Promise.all(tools.map((tool) => pool.run(tool, WORDS[tool], tree.json)));
    tools.forEach((tool, at) => sound(tree, tool, runs[at]));
    return judge(text, tree, tools, runs, settings);
  } catch (error) {
    return refused(error);
  }
}

module.exports = { checkBy, checkText };
