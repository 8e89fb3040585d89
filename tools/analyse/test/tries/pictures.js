'use strict';
// Tries the pictures of scopes and of modules.

const { click, texts } = require('./asking.js');

const heads = texts('svg.scopes .head text');

async function tryScopes({ browser, address, expect }) {
  await browser.open(address('shown.html'));
  await browser.ask(click('#views [data-view=scopes]'));
  expect('the source gives way to the picture', await browser.ask("document.getElementById('file-0').hidden"), true);
  const all = await browser.ask(heads);
  expect('each scope is a box', all.length, await browser.ask("JSON.parse(document.getElementById('data').textContent)[0].scopes.length"));
  expect('the outermost first', all[0], '▾ program 1–26');
  await browser.click('svg.scopes [data-scope="0"] text');
  expect('a click closes it', await browser.ask(heads), ['▸ program 1–26 … 3 scopes inside']);
  await browser.key('Enter', '\r');
  expect('Enter opens it again', (await browser.ask(heads)).length, all.length);
  await browser.ask("document.querySelector('svg.scopes a[href=\"#scope-2\"]').dispatchEvent(new MouseEvent('click', { bubbles: true, cancelable: true }))");
  expect('a box leads to its scope in the source', await browser.ask("document.getElementById('scope-2').classList.contains('chosen')"), true);
  await browser.open(address('long.html'));
  await browser.ask(click('#views [data-view=scopes]'));
  const drawn = (await browser.ask(heads)).length;
  expect('of very many the inner ones are closed', drawn > 1 && drawn < 2000, true);
}

async function tryModules({ browser, address, expect }) {
  await browser.open(address('project.html'));
  await browser.ask(click('#views [data-view=modules]'));
  expect('each module is a box', await browser.ask(texts('svg.modules .module text')), ['main.mjs', 'parse.mjs', 'store.mjs', 'all.mjs', 'node:fs']);
  expect('what nothing is known of is told', await browser.ask(texts('svg.modules .module.external text')), ['node:fs']);
  expect('a line for each pair', await browser.ask(texts('svg.modules .edge title')), [
    'main.mjs imports parse, limit from parse.mjs', 'main.mjs imports default, _ from store.mjs', 'main.mjs imports * as all from all.mjs',
    'main.mjs imports default from node:fs', 'store.mjs imports parse, gone from parse.mjs', 'all.mjs imports * from parse.mjs',
    'all.mjs imports default from store.mjs']);
  await browser.click('svg.modules a[href="#file-2"] text');
  expect('a box leads to its file', await browser.ask("document.getElementById('file-2').hidden"), false);
}

module.exports = { tryModules, tryScopes };
