'use strict';
// What the linker says of outlines, beside what it says of the whole trees.

const { runTool } = require('../programs/index.js');
const { moduleSet } = require('../link/index.js');
const { linkedName, outcomes } = require('../link/linker.js');

// The whole tree with each specifier as the set of outlines has it.
function wholeTree(module) {
  const tree = JSON.parse(module.tree);
  const names = new Map(module.specifiers.map((specifier) => [specifier.span.start, linkedName(specifier)]));
  for (const row of tree.rows) {
    if (row[1] === 'source' && row[2] === 'StringLiteral') {
      row[5] = names.get(row[3]);
    }
  }
  return JSON.stringify(tree);
}

const wordsOf = (line) => line.slice(line.lastIndexOf('"') + 2);

// The symbols of a whole tree have other numbers than those of its outline, so of an outcome word and module are compared.
const comparable = (words) => words.split(' ').slice(0, 2).join(' ');

function compareOutlines(entry) {
  const { modules } = moduleSet([entry], { trees: true });
  const linked = modules.filter((module) => module.kind === 'module');
  const own = outcomes(modules).imports.map(({ outcome: { word, module } }) => (module === null ? word : `${word} ${linked.indexOf(module)}`));
  const set = { modules: linked.map((module) => ({ name: `m${module.number}`, tree: wholeTree(module) })) };
  const run = runTool('module_linker', [], JSON.stringify(set));
  if (run.status > 1) {
    throw new Error(run.stderr);
  }
  const lines = run.stdout.toString('utf8').split('\n').filter((line) => line.startsWith('import '));
  const whole = lines.map((line) => comparable(wordsOf(line)));
  const differing = whole.filter((words, place) => words !== own[place]).length + Math.abs(whole.length - own.length);
  return { imports: whole.length, differing };
}

module.exports = { compareOutlines };
