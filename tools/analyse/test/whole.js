'use strict';
// Compares pages with their sources: whole.js PAGE SOURCE .. The text of the page's source is the file's, line by line,
// no id stands twice, and what a link means is there.

const fs = require('fs');
const { visible } = require('../visible.js');

const SIGNS = { '&lt;': '<', '&gt;': '>', '&quot;': '"', '&amp;': '&' };

function faultOf(page, source) {
  const shown = page.slice(page.indexOf('<div class="source"'), page.indexOf('\n</article>'));
  const text = shown.replace(/<[^>]*>/g, '').replace(/&(lt|gt|quot|amp);/g, (sign) => SIGNS[sign]);
  const lines = source.replace(/^\ufeff/, '').split(/\r\n|[\n\r\u2028\u2029]/);
  if (text !== lines.map((line) => `${visible(line)}\n`).join('')) {
    return 'the text is another';
  }
  const body = page.slice(0, page.indexOf('<script type="application/json"'));
  const ids = [...body.matchAll(/ id="([^"]*)"/g)].map((found) => found[1]);
  if (new Set(ids).size !== ids.length) {
    return 'an id stands twice';
  }
  const there = new Set(ids);
  const missing = [...body.matchAll(/ href="#([^"]*)"/g)].find((found) => !there.has(found[1]));
  return missing === undefined ? null : `nothing has the id ${missing[1]}`;
}

const words = process.argv.slice(2);
for (let place = 0; place < words.length; place += 2) {
  const fault = faultOf(fs.readFileSync(words[place], 'utf8'), fs.readFileSync(words[place + 1], 'utf8'));
  console.log(fault === null ? `ok: the page of ${words[place + 1]} is whole` : `FAILED: ${words[place + 1]}: ${fault}`);
  process.exitCode = fault === null ? process.exitCode : 1;
}
