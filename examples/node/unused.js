'use strict';
// Prints the names that nothing in use uses, through the module: node examples/node/unused.js FILE..

const fs = require('fs');
const bolgwyr = require('../..');

for (const file of process.argv.slice(2)) {
  const found = bolgwyr.check(fs.readFileSync(file, 'utf8'), { file, only: ['no-unused'] });
  for (const { line, column, message } of found) {
    console.log(`${file}:${line}:${column}: ${message}`);
    process.exitCode = 1;
  }
}
