'use strict';
// Changes of documents: what the server makes of them, and what it drops.

const fs = require('fs');
const path = require('path');
const { changeLines, splitLines } = require('../lsp/lines.js');
const { Client } = require('./client.js');
const { CLIENTS } = require('./clients.js');
const { uriOf } = require('./documents.js');
const { expect } = require('./expect.js');
const { diagnostic } = require('./shown.js');

// Numbers that are the same in each run.
function numbers(seed) {
  let state = seed;
  return (below) => {
    state = (Math.imul(state, 1103515245) + 12345) >>> 0;
    return (state >>> 8) % below;
  };
}

const PIECES = ['', 'a', '\n', '\r', '\r\n', 'é', '𝒳', 'bc\n', '\r\nd', '\n\r', '\u2028'];

// A position and its place in the text, by the plainest reading: all lines, all characters.
function placesOf(text, encoding) {
  const places = [];
  const lines = text.split(/(?<=\r\n|\n|\r(?!\n))/);
  const all = /[\r\n]$/.test(text) || text === '' ? [...lines.filter((line) => line !== ''), ''] : lines;
  let start = 0;
  all.forEach((whole, line) => {
    let unit = 0;
    let character = 0;
    for (const sign of [...whole.replace(/[\r\n]+$/, ''), '']) {
      places.push({ line, character, index: start + unit });
      unit += sign.length;
      character += encoding === 'utf-8' ? Buffer.byteLength(sign) : sign.length;
    }
    start += whole.length;
  });
  return places;
}

// Changes lines at random, and a text beside them by slices.
function changeAtRandom(encoding) {
  const pick = numbers(7);
  for (let round = 0; round < 200; round += 1) {
    let text = Array.from({ length: pick(8) }, () => PIECES[pick(PIECES.length)]).join('');
    let lines = splitLines(text);
    for (let step = 0; step < 12; step += 1) {
      const places = placesOf(text, encoding);
      const [start, end] = [places[pick(places.length)], places[pick(places.length)]].sort((left, right) => left.index - right.index);
      const inserted = PIECES[pick(PIECES.length)] + PIECES[pick(PIECES.length)];
      const before = text;
      text = text.slice(0, start.index) + inserted + text.slice(end.index);
      lines = changeLines(lines, { range: { start, end }, text: inserted }, encoding);
      if (lines.join('\n//') !== splitLines(text).join('\n//')) {
        expect(`lines of ${encoding} after ${JSON.stringify([before, start, end, inserted])}`, lines, splitLines(text));
        return;
      }
    }
  }
  expect(`lines of ${encoding}`, true, true);
}

const range = (from, to) => {
  const [[line, character], [endLine, endCharacter]] = [from, to].map((place) => place.split(':').map(Number));
  return { start: { line, character }, end: { line: endLine, character: endCharacter } };
};

class Editor {
  constructor(client, uri) {
    Object.assign(this, { client, uri });
    this.version = 1;
  }

  change(...contentChanges) {
    this.version += 1;
    this.client.notify('textDocument/didChange', { textDocument: { uri: this.uri, version: this.version }, contentChanges });
    return this.version;
  }

  async found(version = this.version) {
    const { params } = await this.client.diagnosticsOf(this.uri, version);
    return params.diagnostics.map((one) => diagnostic(one)[0]);
  }

  ask(method, position, more = {}) {
    return this.client.ask(`textDocument/${method}`, { textDocument: { uri: this.uri }, position, ...more });
  }
}

// `broken` is what its parser says of a text that ends too early.
async function tryChanges(editor, broken) {
  expect('diagnostics at first', await editor.found(), ["0:4-0:5 1 no-unused: variable 'a' is never used tag 1"]);
  editor.change({ text: 'let b;\nuse(b);\n' });
  expect('after a change of the whole', await editor.found(), ["1:0-1:3 1 no-undeclared: 'use' is not declared"]);
  editor.change({ range: range('1:0', '1:3'), text: 'let c =' }, { range: range('0:0', '0:0'), text: '// one\n' });
  expect('after changes of ranges', await editor.found(), ["2:4-2:5 1 no-unused: variable 'c' is never used tag 1"]);
  editor.change({ range: range('2:9', '90:0'), text: '\n' });
  expect('after a change that breaks it', await editor.found(), [`3:0-3:0 1 syntax: ${broken}`]);
  editor.change({ range: range('2:0', '3:0'), text: '' });
  expect('after a change that mends it', await editor.found(), ["1:4-1:5 1 no-unused: variable 'b' is never used tag 1"]);
}

// The same in TypeScript.
async function tryTyped(client, folder) {
  const uri = uriOf(folder, 'changed.mts');
  client.open(uri, 'let a;\n', { languageId: 'typescript' });
  await tryChanges(new Editor(client, uri), "')' expected.");
}

// Answers that a change or the client makes void.
async function tryVoid(editor) {
  const { client } = editor;
  let asked = 0;
  client.together(() => {
    asked = editor.ask('documentSymbol');
    editor.change({ text: 'let d;\n' });
  });
  expect('an answer to an old text', (await client.answerTo(asked)).error?.code, -32801);
  let [first, second] = [0, 0];
  client.together(() => {
    [first, second] = [editor.ask('documentSymbol'), editor.ask('documentSymbol')];
    client.notify('$/cancelRequest', { id: second });
    client.notify('$/cancelRequest', { id: 'never' });
  });
  expect('a request that is taken back', (await client.answerTo(second)).error?.code, -32800);
  expect('the request before it', (await client.answerTo(first)).result?.length, 1);
  const versions = ['e', 'f', 'g', 'h'].map((name) => editor.change({ text: `let ${name};\n` }));
  expect('diagnostics of the last of many versions', await editor.found(), ["0:4-0:5 1 no-unused: variable 'h' is never used tag 1"]);
  const told = client.messages.filter(({ params }) => params?.uri === editor.uri && versions.includes(params.version));
  expect('diagnostics of versions between', told.map(({ params }) => params.version), versions.slice(-1));
}

async function tryClose(editor) {
  const { client, uri } = editor;
  let asked = 0;
  client.together(() => {
    asked = editor.ask('documentSymbol');
    client.notify('textDocument/didClose', { textDocument: { uri } });
  });
  expect('an answer on a closed document', (await client.answerTo(asked)).error?.code, -32801);
  expect('diagnostics of a closed document', (await client.diagnosticsOf(uri, undefined)).params.diagnostics, []);
  expect('a request on a closed document', (await client.answerTo(editor.ask('documentSymbol'))).error?.code, -32602);
  client.open(uri, 'let again;\n', { version: 50 });
  expect('a document that is opened again', await editor.found(50), ["0:4-0:9 1 no-unused: variable 'again' is never used tag 1"]);
}

// Settings of a bolgwyr.json count from the next look at the text on.
async function trySettings(folder, client) {
  const uri = uriOf(folder, 'set.mjs');
  const editor = new Editor(client, uri);
  const settings = path.join(folder, 'bolgwyr.json');
  fs.writeFileSync(settings, '{ "rules": { "no-unused": "warn" } }');
  client.open(uri, 'let lone;\n');
  expect('a warning', await editor.found(), ["0:4-0:8 2 no-unused: variable 'lone' is never used tag 1"]);
  fs.writeFileSync(settings, '{ "rules": { "no-unusd": "warn" } }');
  editor.change({ text: 'let lone2;\n' });
  expect('settings that are wrong', (await editor.found())[0].replace(/ \/.*bolgwyr.json/, ''), /^0:0-0:0 1 settings:.*rules.no-unusd: there is no such rule/);
  fs.writeFileSync(settings, '{ "ignore": ["set.*"] }');
  editor.change({ text: 'let lone3;\n' });
  expect('a file that is left out', await editor.found(), []);
  fs.rmSync(settings);
  editor.change({ text: '// bolgwyr-ignore-next-line\nlet lone4;\n/* global known */ known(other);\n' });
  expect('comments', await editor.found(), ["2:25-2:30 1 no-undeclared: 'other' is not declared"]);
  fs.writeFileSync(settings, '{ "globals": { "other": "readonly" } }');
  client.messages.length = 0;
  client.notify('textDocument/didSave', { textDocument: { uri } });
  expect('settings that were changed, after saving', await editor.found(), []);
}

// Documents that are no files, and texts that have no tables.
const OTHERS = [
  ['untitled:Untitled-1', 'typescript', 'let a: number;\n', /^0:4-0:5 1 no-unused: variable 'a' is never used tag 1$/],
  ['untitled:Untitled-2', 'javascriptreact', 'let a = <b/>; a;\n', /^$/],
  ['file:///nowhere/without-ending', 'typescript', 'export let a: number;\n', /^$/],
  ['untitled:empty', 'javascript', '', /^$/],
  ['untitled:half', 'javascript', "let a = '\ud800';\n", /^0:0-0:0 1 syntax: half of a character/],
  ['file:///nowhere/deep.js', 'javascript', `x${'.y'.repeat(1200)};\n`, /^\d+:\d+-\d+:\d+ 1 syntax: too deep/],
];

async function tryOthers(client) {
  for (const [uri, languageId, text, wanted] of OTHERS) {
    client.open(uri, text, { languageId });
    const { params } = await client.diagnosticsOf(uri, 1);
    expect(uri, params.diagnostics.map((one) => diagnostic(one)[0]).join('\n'), wanted);
  }
}

async function tryAllChanges(folder) {
  ['utf-16', 'utf-8'].forEach(changeAtRandom);
  const client = new Client(['--stdio'], { cwd: folder });
  await client.request('initialize', { capabilities: CLIENTS.rich });
  const uri = uriOf(folder, 'changed.mjs');
  client.open(uri, 'let a;\n');
  const editor = new Editor(client, uri);
  await tryChanges(editor, 'Unexpected token');
  await tryTyped(client, folder);
  await tryVoid(editor);
  await tryClose(editor);
  await trySettings(folder, client);
  await tryOthers(client);
  expect('status', await client.end(), 0);
}

module.exports = { tryAllChanges };
