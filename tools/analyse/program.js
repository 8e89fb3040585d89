'use strict';
// What the programs answer on a tree.

const { RunFault } = require('../bolgwyr/faults.js');
const { programPath, runBy, runTool } = require('../programs/index.js');
const { Refusal } = require('./refusal.js');

// What each exit status without an answer means for a file.
const CAUSES = new Map([
  [4, 'too large: its tree is longer than the program takes'],
  [5, 'the program could not read the tree'],
  [6, 'the program could not write its answer'],
  [7, 'too large: the program wants more memory'],
]);

// A tree that the program refused, before the place is told.
class RefusedTree extends Error {
  constructor(refusal) {
    super(refusal.cause);
    this.refusal = refusal;
  }
}

// What a refused tree's line says: the cause, and the node to blame if there is one.
function readRefusal(line) {
  const found = /^(?:tree: )?(.*?)(?: at (node|comment) (\d+))?$/.exec(line);
  return { cause: found[1], kind: found[2], id: found[3] === undefined ? null : Number(found[3]) };
}

// Throws what a run without an answer means.
function fail(tool, { status, signal, stderr }) {
  const program = programPath(runBy(tool).crate);
  const line = stderr.trim().split('\n').pop();
  if (CAUSES.has(status)) {
    throw new Refusal(CAUSES.get(status));
  }
  if (status === 3 && line.startsWith('tree: ')) {
    throw new RefusedTree(readRefusal(line));
  }
  if (signal) {
    throw new Refusal(`${program} was ended by ${signal}`);
  }
  throw new RunFault(`${program}: status ${status}${line === '' ? '' : `: ${line}`}`);
}

// Tools whose answer is a report, or begins with one. A report is never empty.
const REPORTING = ['report', 'file_check'];

// The run of a tool, where it has an answer: statuses 0 and 1.
function answered(tool, run) {
  const has = (run.status === 0 || run.status === 1) && (!REPORTING.includes(tool) || run.stdout.length > 0);
  return has ? run : fail(tool, run);
}

// The answer of a tool on a tree's text.
function ask(tool, words, json) {
  return answered(tool, runTool(tool, words, json));
}

module.exports = { RefusedTree, answered, ask };
