'use strict';
// From a source text to its tree and tables.

const { treeOf } = require('../source-to-tree/convert.js');
const { RunFault } = require('../bolgwyr/faults.js');
const { runTool } = require('../programs/index.js');
const { Positions } = require('../analyse/positions.js');
const { parseReport } = require('../analyse/report-parser.js');
const { Analysed, declarationsOf } = require('./text-tables.js');

// The tables and early errors of a tree.
function reportOf(json) {
  const run = runTool('report', ['--check'], json);
  if (run.status !== 0 && run.status !== 1) {
    throw new RunFault(`the report program ended with ${run.signal || run.status}: ${run.stderr.trim()}`);
  }
  return parseReport(run.stdout.toString('utf8'));
}

const LONE_HALF = /[\ud800-\udbff](?![\udc00-\udfff])|(?<![\ud800-\udbff])[\udc00-\udfff]/;

function unread(error, filename) {
  return error.name === 'Refusal' ? new RunFault(error.lineFor(filename)) : error;
}

// Options: `filename`, which tells the language; `parser` and `goal`, as `treeOf` knows them.
function analysed(source, options) {
  if (LONE_HALF.test(source)) {
    throw new RunFault(`${options.filename}: half of a character can't be written as UTF-8`);
  }
  let json;
  try {
    json = Buffer.from(treeOf(source, { ...options }).json);
  } catch (error) {
    throw unread(error, options.filename);
  }
  return withTables({ source, options, json, tree: JSON.parse(json.toString('utf8')), positions: new Positions(source) });
}

// The same where the tree is at hand.
function withTables(parts) {
  return new Analysed({ ...parts, report: reportOf(parts.json) });
}

module.exports = { Analysed, LONE_HALF, analysed, declarationsOf, reportOf, withTables };
