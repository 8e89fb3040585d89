'use strict';
// Compares the rows that are read one by one with those of the whole tree, and parents and nodes with those found the slow way.

const assert = require('assert');
const fs = require('fs');
const path = require('path');
const { convertText, readTree } = require('../tree.js');

const FILES = ['shown.mjs', 'faulty.ts', 'page.js', 'rows.js'].map((name) => path.join(__dirname, name));
const TEXTS = ['', 'a', '"]],[[0,\\"x\\\\"; `${a}]],[1`;', 'typeof (é𝒳 + "é𝒳"), é𝒳;', 'class A { static #b = /[\\]"]/; }'];

// The last row before that is one level higher.
function parentSlowly(rows, node) {
  const found = rows.slice(0, node).reverse().findIndex(([depth]) => depth === rows[node][0] - 1);
  return found === -1 ? null : node - 1 - found;
}

function compare(text, file) {
  const { json } = convertText(text, { file });
  const { rows } = JSON.parse(json.toString('utf8'));
  const tree = convertText(text, { file });
  assert.strictEqual(tree.rows.count, rows.length);
  rows.forEach((row, node) => {
    assert.deepStrictEqual(tree.rows.at(node), row);
    assert.strictEqual(tree.parent(node), parentSlowly(rows, node));
  });
  for (const mark of ['declare', 'computed']) {
    assert.deepStrictEqual(tree.rows.marked(mark), [...rows.keys()].filter((node) => rows[node][6].includes(mark)));
  }
  const references = rows.map(([, , kind, start], node) => ({ kind, start, node })).filter(({ kind }) => kind === 'IdentifierReference');
  for (const { kind, start, node } of [...references, ...references.reverse()]) {
    assert.strictEqual(tree.rows.nodeAt(kind, start), node);
  }
}

// A tree in another form of JSON is the same tree.
function compareGiven(text, file) {
  const tree = convertText(text, { file });
  const given = readTree(JSON.stringify(tree.value, null, 2));
  assert.deepStrictEqual([given.lang, given.goal, given.rows.count], [tree.lang, tree.goal, tree.rows.count]);
  for (let node = 0; node < tree.rows.count; node += 1) {
    assert.deepStrictEqual([given.row(node), given.parent(node)], [tree.row(node), tree.parent(node)]);
  }
}

TEXTS.forEach((text) => compare(text, 'a.js'));
compare('declare let a: "declare"; "declare"; `"declare"`; declare module "computed" { class B { [c]: d } } // "declare"', 'a.ts');
FILES.forEach((file) => compare(fs.readFileSync(file, 'utf8'), file));
FILES.forEach((file) => compareGiven(fs.readFileSync(file, 'utf8'), file));
console.log('ok: rows that are read one by one are those of the whole');
