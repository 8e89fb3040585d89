'use strict';
// What may be chosen in place of what a file's name tells: the parser of its text, and its goal.

const PARSERS = ['acorn', 'typescript', 'babel'];
const GOALS = ['script', 'module', 'commonjs'];

module.exports = { GOALS, PARSERS };
