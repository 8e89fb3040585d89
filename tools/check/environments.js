'use strict';
// Names that are there without a declaration, by environments of the package `globals`.

const { load } = require('../source-to-tree/load.js');

// The names of the language, which each file knows.
const LANGUAGE = 'builtin';

// Where nobody names an environment: what Node and browsers share, and those of which a file has one of these names, free.
const SHARED = 'shared-node-browser';
const MARKS = [
  ['node', ['require', 'module', 'exports', 'process', '__dirname', '__filename', 'Buffer', 'global']],
  ['browser', ['window', 'document', 'self', 'navigator']],
  ['amd', ['define']],
];

const sets = new Map();

const environments = () => Object.keys(load('globals'));

function namesOf(environment) {
  if (!sets.has(environment)) {
    sets.set(environment, new Set(Object.keys(load('globals')[environment])));
  }
  return sets.get(environment);
}

// The environments that a file is made for, by the names that are free in it.
function guessed(free) {
  const found = MARKS.filter(([, marks]) => marks.some((mark) => free.has(mark)));
  return [SHARED, ...found.map(([environment]) => environment)];
}

// Node runs a file that is no module as the body of a function.
const WRAPPERS = ['node', 'commonjs'];
const WRAPPED = new Set(['arguments']);

// Sets of names that are known in a file; `named` is null where nobody names an environment.
function knownSets(named, free, goal) {
  const environments = named === null ? guessed(free) : named;
  const isWrapped = goal !== 'module' && environments.some((environment) => WRAPPERS.includes(environment));
  return [...[...new Set([LANGUAGE, ...environments])].map(namesOf), ...(isWrapped ? [WRAPPED] : [])];
}

module.exports = { environments, knownSets };
