'use strict';
// Tries pages in a browser: page.js FOLDER [NAME..], with the pages that tools/test-page.sh makes in it, and some tries in place of all.
// Screenshots go there too.

const path = require('path');
const { pathToFileURL } = require('url');
const { Browser } = require('./browser.js');
const { click } = require('./tries/asking.js');
const { tryFindings, tryProperty } = require('./tries/finding.js');
const { tryModules, tryScopes } = require('./tries/pictures.js');
const { tryTies } = require('./tries/project.js');
const { OPEN_RENAMING, tryLongRenaming, tryRefusals, tryRenaming } = require('./tries/renaming.js');
const { tryAddress, tryClicks, tryKeys, tryLong } = require('./tries/selecting.js');

const [given, ...wanted] = process.argv.slice(2);
const folder = path.resolve(given);
const address = (name, part = '') => `${pathToFileURL(path.join(folder, name)).href}${part}`;

// How long all tries may take, in milliseconds.
const LONGEST = 1_200_000;

let failed = 0;
function expect(name, value, wanted) {
  const same = JSON.stringify(value) === JSON.stringify(wanted);
  failed += same ? 0 : 1;
  console.log(same ? `ok: ${name}` : `FAILED: ${name}: ${JSON.stringify(value)} in place of ${JSON.stringify(wanted)}`);
}

// What is to be seen: a page, the part of its address, and what is done there.
const SHOWN = [
  ['shown', 'shown.html', '#ref-2', ''],
  ['findings', 'faulty.html', '', ''],
  ['renaming', 'renamed.html', '#symbol-2', OPEN_RENAMING],
  ['underscore', 'project.html', '#m2-symbol-2', ''],
  ['scopes', 'shown.html', '', click('#views [data-view=scopes]')],
  ['modules', 'project.html', '', click('#views [data-view=modules]')],
];

const SIZES = { wide: [1400, 900], narrow: [420, 800] };

async function takePictures({ browser }) {
  for (const scheme of ['light', 'dark']) {
    await browser.colours(scheme);
    for (const [size, [width, height]] of Object.entries(SIZES)) {
      await browser.resize(width, height);
      for (const [name, page, part, done] of SHOWN) {
        await browser.open(address(page, part));
        await browser.ask(done);
        await browser.screenshot(path.join(folder, `${name}-${size}-${scheme}.png`));
      }
    }
  }
}

const TRIES = [tryClicks, tryKeys, tryAddress, tryFindings, tryProperty, tryRenaming, tryRefusals, tryTies, tryScopes, tryModules, tryLong, tryLongRenaming, takePictures];

async function main() {
  const browser = new Browser();
  const late = setTimeout(() => {
    console.log('FAILED: the browser takes too long');
    browser.stop();
    process.exit(1);
  }, LONGEST);
  try {
    await browser.attach(1400, 900);
    for (const part of TRIES.filter(({ name }) => wanted.length === 0 || wanted.includes(name))) {
      await part({ browser, address, expect });
    }
  } finally {
    clearTimeout(late);
    await browser.close();
  }
  process.exitCode = failed === 0 ? 0 : 1;
}

main();
