'use strict';
// Tries a page of several files: tabs, and imports that lead to exports.

const { click, texts } = require('./asking.js');

const shownFile = "[...document.querySelectorAll('article.file:not([hidden])')].map((one) => one.getAttribute('aria-label'))";
const detailLinks = texts('#details a');

async function tryTies({ browser, address, expect }) {
  await browser.open(address('project.html'));
  expect('each file has a tab', await browser.ask(texts('#files .tab')), ['main.mjs', 'parse.mjs', 'store.mjs', 'all.mjs']);
  expect('the entry is shown', await browser.ask(shownFile), ['main.mjs']);
  await browser.click('#symbol-0');
  expect('an import tells its export', (await browser.ask(detailLinks))[1], 'its export in parse.mjs');
  await browser.key('g', 'g');
  expect('g goes there', [await browser.ask(shownFile), await browser.ask('location.hash')], [['parse.mjs'], '#m1-symbol-0']);
  expect('where the declaration is marked', await browser.ask(texts('a.declaration')), ['parse']);
  expect('and what imports it is told', (await browser.ask(detailLinks)).slice(1, 3), ['main.mjs', 'store.mjs']);
  await browser.ask(click('#details a[href="#m2-symbol-0"]'));
  expect('a click goes to an import', await browser.ask(shownFile), ['store.mjs']);
  await browser.open(address('project.html', '#symbol-2'));
  await browser.key('g', 'g');
  expect('a default export without a name is gone to', [await browser.ask(shownFile), await browser.ask('location.hash')], [['store.mjs'], '#m2-default']);
  await browser.open(address('project.html', '#symbol-1'));
  await browser.key('g', 'g');
  expect('an export under another name is found', await browser.ask(texts('a.declaration')), ['top']);
  await browser.ask(click('#files [data-file="0"]'));
  await browser.click('#module-2');
  expect('the name of a module leads to it', await browser.ask(shownFile), ['all.mjs']);
  expect('its lists are shown', await browser.ask("[...document.querySelectorAll('.panels:not([hidden])')].map((one) => one.dataset.file)"), ['3']);
  await browser.ask(click('#files [data-file="2"]'));
  expect('an import that leads nowhere is a finding', await browser.ask(texts('#m2-panel-findings .message > a')), ["'gone' is not exported by ./parse.mjs"]);
  await browser.key('/', '/');
  expect('/ goes to the filter of the file', await browser.ask('document.activeElement.id'), 'm2-filter');
}

module.exports = { tryTies };
