#!/usr/bin/env node
'use strict';
// Compares no-unused and no-undeclared with no-unused-vars and no-undef of ESLint 6.4, file by file: each difference by its kind.
// usage: tools/compare-eslint.js [--all] [FILES|FOLDERS]. Status 1 where a difference is of no known kind; --all shows each. Without
// files an example of each kind is tried.

const { compareFiles } = require('./compare-eslint/compare.js');

process.exitCode = compareFiles(process.argv.slice(2));
