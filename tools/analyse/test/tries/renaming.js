'use strict';
// Tries renaming in place: what is typed, what would change, and what is refused.

const { click, named, texts } = require('./asking.js');
const { spentOn } = require('./spent.js');

// Types a name into the field that is open.
const typed = (name) => `(() => { const input = document.querySelector('#rename input'); input.value = ${JSON.stringify(name)};
  input.dispatchEvent(new Event('input', { bubbles: true })); })()`;

const OPEN_RENAMING = `${click('#details [value=rename]')}; ${typed('all')}`;

const answer = texts('#renamed > p, #renamed > pre');

async function tryRenaming({ browser, address, expect }) {
  await browser.open(address('renamed.html'));
  await browser.click(`#${await browser.ask(named('r', 'total', 0))}`);
  await browser.key('r', 'r');
  expect('r opens the field at the name, which stands in it', await browser.ask("document.activeElement.value"), 'total');
  await browser.send('Input.insertText', { text: 'all' });
  expect('what would change is a diff', await browser.ask(texts('#renamed .diff span:not(.quiet)')), [
    ' let total = 1;\n', ' function sum(list: number[]) {\n', '-  let total = 0;\n', '-  for (const each of list) total += each;\n',
    '-  return { total };\n', '+  let all = 0;\n', '+  for (const each of list) all += each;\n', '+  return { total: all };\n',
    ' }\n', ' type Total = typeof total;\n', ' const { length: size = total } = [sum] as Total[] | Function[];\n']);
  expect('with the command', await browser.ask(texts('#renamed code')), ['bolgwyr rename renamed.ts:3:7 all --write']);
  await browser.key('Escape');
  expect('Escape closes it', await browser.ask("document.getElementById('rename').hidden"), true);
  expect('and goes back to the name', await browser.ask('document.activeElement.textContent'), 'total');
  await browser.key('F2');
  expect('F2 opens it again', await browser.ask("document.getElementById('rename').hidden"), false);
  await browser.ask(typed('total'));
  expect('the same name changes nothing', await browser.ask(answer), ['This is its name.']);
}

// A name's place in the page of renamed.ts, a new name, and what is said.
const REFUSED = [
  ['d', 'each', 0, 'total', 'Refused: `total` here would mean the renamed `each` of 4:14 (4:28)'],
  ['d', 'total', 1, 'each', 'Refused: `each` here would mean the one of 4:14 (4:28)'],
  ['d', 'list', 0, 'total', 'Refused: `total` here and at 2:14 would be one variable (3:7)'],
  ['d', 'size', 0, 'class', 'Refused: `class` is a reserved word (ECMAScript 12.7.2) (8:17)'],
  ['d', 'size', 0, '1a', 'Refused: "1a" is no identifier'],
  ['d', 'size', 0, 'type', 'Refused: `type` means something else at some places, which a parser has to tell: bolgwyr rename has one (8:17)'],
  ['d', 'Total', 0, 'string', 'Refused: `string` is the name of a type of TypeScript (7:6)'],
];

async function tryRefusals({ browser, address, expect }) {
  await browser.open(address('renamed.html'));
  for (const [look, name, place, to, wanted] of REFUSED) {
    await browser.ask(`document.getElementById(${named(look, name, place)}).click()`);
    await browser.ask(`${click('#details [value=rename]')}; ${typed(to)}`);
    expect(`${name} as ${to} is refused with its reason`, await browser.ask(texts('#renamed .refused')), [wanted]);
  }
  await browser.open(address('project.html', '#symbol-7'));
  await browser.ask(`${click('#details [value=rename]')}; ${typed('add')}`);
  expect('what a module exports is refused', await browser.ask(texts('#renamed .refused')), ['Refused: the name is seen by others: exported at 7:1 (7:17)']);
  expect('with its line', await browser.ask(texts('#renamed pre')), ['  7 | export function sum(list) {\n    |                 ^^^']);
}

async function tryLongRenaming({ browser, address, expect }) {
  await browser.open(address('long.html', '#symbol-0'));
  await browser.ask(click('#details [value=rename]'));
  const first = await spentOn(browser, typed('fresh'));
  const next = await spentOn(browser, typed('fresher'));
  console.log(`a name of a page of ten thousand lines, typed: ${first} ms with the reading of its tables, then ${next} ms`);
  expect('what would change is told', await browser.ask(texts('#renamed > p:first-child')), ['3 places would change:']);
}

module.exports = { OPEN_RENAMING, tryLongRenaming, tryRefusals, tryRenaming };
