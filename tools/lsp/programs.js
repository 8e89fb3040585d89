'use strict';
// The programs that the server asks, which are built before the first question.

const { cratesOf, prepare, programsFor, readyOf } = require('../programs/index.js');
const { Pool } = require('../programs/pool.js');

const TOOLS = ['file_check', 'report', 'name_lint', 'renamer'];

// One answers; the other stands ready for when a change makes that answer void.
const SIDE_BY_SIDE = 2;

const INFO = 3;
const ERROR = 1;

// Builds what isn't there, and says so.
function prepareFirst(told) {
  try {
    const crates = cratesOf(TOOLS);
    if (crates.some((crate) => readyOf(crate).place === null)) {
      told({ type: INFO, message: 'builds its program first, which takes some minutes' });
    }
    prepare(crates);
  } catch (error) {
    told({ type: ERROR, message: error.message });
  }
}

let pool = null;

// The run of a tool on a tree, in the form of `runTool`; `sent()` hears that the program has the tree. While it answers others are
// started in the place of those that were ended, which takes as long as many an answer.
function runBeside(tool, words, input, sent) {
  pool ??= new Pool({ size: SIDE_BY_SIDE, programs: programsFor(TOOLS) });
  return pool.run(tool, words, input, () => { sent(); setImmediate(() => pool.standReady()); });
}

// Has the programs drop what they are at.
const abandonRuns = () => pool?.abandon();

module.exports = { abandonRuns, prepareFirst, runBeside };
