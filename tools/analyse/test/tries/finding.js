'use strict';
// Tries what the page says that bolgwyr check finds.

const { click, ids, texts } = require('./asking.js');

async function tryFindings({ browser, address, expect }) {
  await browser.open(address('faulty.html'));
  expect('findings are listed in order', await browser.ask(texts('#panel-findings .message > a')), [
    "variable 'twice' is never used", 'Identifier `twice` has already been declared', "label 'unused' is never used", 'class \'C\' is never used',
    'TS(1244): Abstract methods can only appear within an abstract class.']);
  expect('with severity and rule', await browser.ask(texts('#panel-findings .message > small')),
    ['error, no-unused', 'error, early-error', 'error, unused-label', 'error, no-unused', 'error, early-error']);
  expect('with all their places', await browser.ask(texts('#panel-findings .message:nth-child(2) ul a')), ['1:5', '2:5']);
  expect('with help and notes', await browser.ask(texts('#panel-findings .message p')),
    ['Help: Mark the class as `abstract`.', 'Note: This is a note.']);
  expect('errors are marked', await browser.ask(texts('.source .finding')), ['twice', 'twice', 'm']);
  expect('labels are', await browser.ask(texts('.source .label')), ['unused']);
  expect('unused names are', await browser.ask(texts('.source .unused')), ['twice', 'C']);
  await browser.ask(click('#panel-findings .message:last-child > a'));
  expect('a click goes to the place', await browser.ask('location.hash'), '#finding-4-0');
  expect('which is shown', await browser.ask(ids('.visited')), ['finding-4-0']);
}

// A parameter that is a property of its class is no unused name.
async function tryProperty({ browser, address, expect }) {
  await browser.open(address('property.html'));
  expect('unused names in the source', await browser.ask(texts('.source .u')), ['label']);
  expect('unused names in the list', await browser.ask(texts('#panel-symbols .unused a')), ['label']);
  expect('unused names that are findings', await browser.ask(texts('#panel-findings .message > a')), ["parameter 'label' is never used"]);
}

module.exports = { tryFindings, tryProperty };
