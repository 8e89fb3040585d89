'use strict';
// Compares lines and columns with those found the slow way, at each byte of small sources.

const assert = require('assert');
const { Positions } = require('../positions.js');

const SOURCES = ['', 'a', 'a\nb', 'a\r\nb\rc\u2028d\u2029e\n', 'é\n𝒳y\nz', '\ufeffa\nb', `${'é𝒳a'.repeat(300)}\n${'x'.repeat(600)}\né`, `${'a'.repeat(256)}`, `${'é'.repeat(256)}`];

// Line and column by splitting the text before the place.
function slowly(text, index) {
  const before = text.slice(0, index).replace(/^\ufeff/, '').split(/\r\n|[\n\r\u2028\u2029]/);
  return { line: before.length, column: [...before[before.length - 1]].length + 1 };
}

for (const text of SOURCES) {
  const positions = new Positions(text);
  let bytes = 0;
  let index = 0;
  for (const character of [...text, '']) {
    const inside = character === '\n' && text[index - 1] === '\r';
    if (!inside) {
      assert.strictEqual(positions.indexOf(bytes), index);
      assert.deepStrictEqual(positions.placeOf(bytes), slowly(text, index));
    }
    bytes += Buffer.byteLength(character);
    index += character.length;
  }
}
console.log('ok: lines and columns are those of the characters');
