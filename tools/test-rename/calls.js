'use strict';
// Tries the call in a module: what it gives, and what it throws.

const { SourceMapConsumer } = require('../source-to-tree/load.js').load('source-map');
const { rename } = require('../rename/index.js');

function thrown(options, text = 'let a;') {
  try {
    rename(text, { file: 'a.mjs', ...options });
  } catch (error) {
    return `${error.status} ${error.message}`;
  }
  return 'nothing';
}

// Where the map says that a place of the new text comes from.
function mapped(expect) {
  const { map } = rename('let é = 1;\nf({ é });\n', { file: 'a.mjs', name: 'é', to: 'other', map: true });
  const consumer = new SourceMapConsumer(JSON.parse(map.toString()));
  const { source, line, column, name } = consumer.originalPositionFor({ line: 2, column: 4 });
  expect('a source map', 'a.mjs 2:4 é', `${source} ${line}:${column} ${name}`);
}

function calls(expect) {
  const { text, edits, map, warnings } = rename('let a;\nf({ a });', { file: 'a.mjs', line: 1, column: 5, to: 'b' });
  expect('a call', 'let b;\nf({ a: b });', text);
  expect('its edits', '4-5 1:5 a b, 11-12 2:5 a a: b', edits.map((one) => `${one.start}-${one.end} ${one.line}:${one.column} ${one.old} ${one.text}`).join(', '));
  expect('no map', 'null ', `${map} ${warnings.join()}`);
  expect('no place', '2 a place has a line and a column, both from 1, or a name', thrown({ to: 'b' }));
  expect('a place that is none', '2 a place has a line and a column, both from 1, or a name', thrown({ line: 1, column: 0, to: 'b' }));
  expect('no identifier', '2 "1b" is no identifier', thrown({ name: 'a', to: '1b' }));
  expect('half of a character', "3 a.mjs: half of a character can't be written as UTF-8", thrown({ name: 'a', to: 'b' }, 'let a = "\ud800";'));
  expect('no tree', '3 a.mjs:1:9: Unexpected token', thrown({ name: 'a', to: 'b' }, 'let a = ;'));
  mapped(expect);
}

module.exports = { calls };
