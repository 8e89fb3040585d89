'use strict';
// Tries what clicks, keys and parts of the address select.

const { ids, named, texts } = require('./asking.js');
const { spentOn } = require('./spent.js');

async function tryClicks({ browser, address, expect }) {
  await browser.open(address('shown.html'));
  const reference = await browser.ask(named('r', 'limit'));
  const declaration = await browser.ask(named('d', 'limit'));
  await browser.click(`#${reference}`);
  expect('a click on a reference marks its declaration', await browser.ask(ids('a.declaration')), [declaration]);
  expect('and its other uses', await browser.ask(texts('.source a.tied')), ['limit', 'limit']);
  expect('and says which one it was', await browser.ask(ids('[aria-current]')), [reference]);
  expect('the details tell the name', await browser.ask(texts('#details .name')), ['limit']);
  expect('the details tell the declaration, the scope and the uses', await browser.ask(texts('#details a')),
    ['2:7', '0 (program, lines 1 to 26)', '8:20', '25:21', '6 (function, lines 8 to 12)']);
  expect('the address names it', await browser.ask('location.hash'), `#${reference}`);
  await browser.click(`#${await browser.ask(named('d', 'twice'))}`);
  expect('all declarations of a name are marked', await browser.ask(texts('a.declaration')), ['twice', 'twice']);
  await browser.click(`#${await browser.ask(named('f', 'JSON'))}`);
  expect('a free name has no declaration', await browser.ask(texts('a.declaration')), []);
  expect('and is told to be free', await browser.ask("document.querySelector('#details').textContent.includes('is free')"), true);
  await browser.click('#details a[href^="#scope-"]');
  expect('a scope is chosen by its link', await browser.ask("document.querySelectorAll('.chosen[id^=scope-]').length"), 1);
}

async function tryKeys({ browser, address, expect }) {
  await browser.open(address('shown.html'));
  await browser.key('j', 'j');
  expect('j begins at the first name', await browser.ask(texts('[aria-current]')), ['readFile']);
  await browser.key('j', 'j');
  expect('j goes to the next place of the name', await browser.ask("document.querySelector('[aria-current]').className.split(' ')[0]"), 'r');
  await browser.key('k', 'k');
  expect('k goes back', await browser.ask("document.querySelector('[aria-current]').className.split(' ')[0]"), 'd');
  await browser.key('n', 'n');
  expect('n goes to the next symbol', await browser.ask(texts('[aria-current]')), ['limit']);
  await browser.key('p', 'p');
  expect('p goes back', await browser.ask(texts('[aria-current]')), ['readFile']);
  await browser.key('Tab');
  expect('Tab goes to the next name', await browser.ask('document.activeElement.textContent'), 'limit');
  await browser.key('Enter', '\r');
  expect('Enter selects it', await browser.ask(texts('a.declaration')), ['limit']);
  await browser.key('Escape');
  expect('Escape clears', await browser.ask("document.querySelectorAll('.declaration, .tied, [aria-current]').length"), 0);
  expect('and the address', await browser.ask('location.hash'), '');
  await browser.key('/', '/');
  expect('/ goes to the filter', await browser.ask('document.activeElement.id'), 'filter');
  await browser.send('Input.insertText', { text: 'lim' });
  expect('which leaves the names with these letters', await browser.ask(texts('#panel-symbols li:not([hidden]) a')), ['limit']);
}

async function tryAddress({ browser, address, expect }) {
  await browser.open(address('shown.html', '#symbol-1'));
  expect('a part of the address selects a symbol', await browser.ask(texts('a.declaration')), ['limit']);
  expect('text of the source is no markup', await browser.ask("document.querySelector('.source b') === null"), true);
  expect('the source is whole', await browser.ask("document.querySelector('.source').textContent.includes('\"<b>&amp;</b>\"')"), true);
}

async function tryLong({ browser, address, expect }) {
  await browser.open(address('long.html'));
  const lines = await browser.ask("document.querySelector('.numbers').textContent.split('\\n').length");
  console.log(`a page of ${lines} lines takes ${Math.round(await browser.processorTime())} ms to load`);
  const click = await spentOn(browser, "[...document.querySelectorAll('.source a.r')].pop().click()");
  console.log(`a click in it takes ${click} ms`);
  const jump = await spentOn(browser, "location.hash = '#symbol-' + (document.querySelectorAll('#panel-symbols li').length - 1)");
  console.log(`a jump to its last symbol takes ${jump} ms`);
  const seen = await browser.ask(`(() => { const b = document.querySelector('a.declaration').getBoundingClientRect();
    return b.top > 0 && b.bottom < innerHeight; })()`);
  expect('the last symbol is in view', seen, true);
  expect('a click is quick', click < 1000, true);
}

module.exports = { tryAddress, tryClicks, tryKeys, tryLong };
