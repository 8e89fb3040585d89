#!/usr/bin/env node
'use strict';
// Tries bolgwyr lsp with frames that are written by hand. It needs the programs.

const fs = require('fs');
const os = require('os');
const path = require('path');
const { ANSWERS } = require('./lsp/answers/index.js');
const { METHODS } = require('./lsp/methods.js');
const { tryAllChanges } = require('./test-lsp/changes.js');
const { Client, frame } = require('./test-lsp/client.js');
const { CLIENTS } = require('./test-lsp/clients.js');
const { CONVERSATIONS } = require('./test-lsp/conversations.js');
const { TEXTS, uriOf } = require('./test-lsp/documents.js');
const { expect, tally } = require('./test-lsp/expect.js');
const { DIAGNOSTICS, REQUESTS } = require('./test-lsp/requests.js');
const { diagnostic, shown } = require('./test-lsp/shown.js');

const LANGUAGES = { '.ts': 'typescript' };

const bytesOf = (sent) => (Buffer.isBuffer(sent) ? sent : frame(sent));

// An answer as the table of conversations has it.
function inShort({ id, result, error }) {
  return [id, error === undefined ? result && Object.keys(result)[0] : error.code];
}

async function converse({ name, sent, comes, status }) {
  const client = new Client(['--stdio', '--clientProcessId=1']);
  sent.forEach((one) => client.write(bytesOf(one)));
  client.child.stdin.end();
  expect(`${name}: status`, await client.ended, status);
  expect(`${name}: answers`, client.messages.filter(({ method }) => method === undefined).map(inShort), comes);
}

async function started(kind, folder) {
  const client = new Client(['--stdio'], { cwd: folder });
  const { result } = await client.request('initialize', { capabilities: CLIENTS[kind] });
  expect(`${kind}: encoding`, result.capabilities.positionEncoding, kind === 'resolving' ? 'utf-8' : 'utf-16');
  client.notify('initialized', {});
  for (const [name, text] of Object.entries(TEXTS)) {
    client.open(uriOf(folder, name), text, { languageId: LANGUAGES[path.extname(name)] });
  }
  return client;
}

function parametersOf(folder, name, at, { to = at, ...more }) {
  const [start, end] = [at, to].map((place) => place.split(':').map(Number)).map(([line, character]) => ({ line, character }));
  return { textDocument: { uri: uriOf(folder, name) }, position: start, range: { start, end }, ...more };
}

// An action that was offered without its edit gets it, and the last one is asked for too late.
async function resolveActions(client, actions) {
  for (const action of actions) {
    const { result } = await client.request('codeAction/resolve', action);
    expect(`${action.title}: resolved`, result.edit !== undefined && result.title, action.title);
  }
  const late = { ...actions[0], data: { ...actions[0].data, version: 0 } };
  expect('an action of an old version', (await client.request('codeAction/resolve', late)).error?.code, -32801);
}

async function askAll(kind, folder) {
  const client = await started(kind, folder);
  for (const [, name, method, at, wanted, more = {}] of REQUESTS.filter((row) => row[0] === kind)) {
    const answer = await client.request(`textDocument/${method}`, parametersOf(folder, name, at, more));
    expect(`${kind}: ${method} at ${at} of ${name} ${JSON.stringify(more)}`, shown(`textDocument/${method}`, answer), wanted);
    if (kind === 'resolving' && method === 'codeAction') {
      await resolveActions(client, answer.result);
    }
  }
  if (kind === 'rich') {
    await tellAll(client, folder);
  }
  expect(`${kind}: status`, await client.end(), 0);
}

async function tellAll(client, folder) {
  for (const [name, wanted] of Object.entries(DIAGNOSTICS)) {
    const { params } = await client.diagnosticsOf(uriOf(folder, name), 1);
    expect(`diagnostics of ${name}`, params.diagnostics.map(diagnostic), wanted);
  }
  const warnings = client.messages.filter(({ method }) => method === 'window/showMessage').map(({ params }) => params.message);
  expect('a warning of the renamer', warnings, ["bolgwyr: `shared` is a name of a script's top level: other scripts of a page may use it"]);
}

// Words of the command, and that each method has an answer.
async function tryWords() {
  const asked = Object.keys(ANSWERS).filter((method) => method.includes('/')).sort();
  expect('methods and answers', asked, Object.keys(METHODS).sort());
  const unknown = new Client(['--socket'], { stderr: 'ignore' });
  expect('an unknown word', await unknown.ended, 2);
}

const AT_ONCE = 2;

async function runAll(tasks) {
  const waiting = [...tasks];
  const run = async () => {
    while (waiting.length > 0) {
      await waiting.shift()();
    }
  };
  await Promise.all(Array.from({ length: AT_ONCE }, run));
}

async function main() {
  const folder = fs.mkdtempSync(path.join(os.tmpdir(), 'bolgwyr-lsp-'));
  fs.mkdirSync(path.join(folder, 'changes'));
  try {
    await runAll([
      ...Object.keys(CLIENTS).map((kind) => () => askAll(kind, folder)),
      () => tryAllChanges(path.join(folder, 'changes')),
      tryWords,
      ...CONVERSATIONS.map((conversation) => () => converse(conversation)),
    ]);
  } finally {
    fs.rmSync(folder, { recursive: true });
  }
  console.log(`${tally.tried - tally.failed} of ${tally.tried} as they should be`);
  process.exitCode = tally.failed === 0 ? 0 : 1;
}

main();
