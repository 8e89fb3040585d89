'use strict';
// Prints each scope of files with the names that it binds: node examples/node/tables.js FILE..

const fs = require('fs');
const bolgwyr = require('../..');

for (const file of process.argv.slice(2)) {
  const { scopes } = bolgwyr.analyse(fs.readFileSync(file, 'utf8'), { file });
  for (const { kind, span, bindings } of scopes.filter((scope) => scope.bindings.length > 0)) {
    console.log(`${file}:${span.line}:${span.column}: ${kind} binds ${bindings.map(({ name }) => name).join(', ')}`);
  }
}
