'use strict';
// Runs small programs as they are and mangled: both must tell the same.

const vm = require('vm');
const { mangle } = require('../mangle/index.js');

const PROGRAMS = {
  closures: `
    function counter(start) { let current = start; return { next() { current += 1; return current; }, current }; }
    const first = counter(1), second = counter(10);
    tell(first.next(), first.next(), second.next(), first.current);`,
  patterns: `
    function area({ width, height: tall = 2, ...others }, [depth, ...more]) { return { width, tall, depth, others, more }; }
    tell(JSON.stringify(area({ width: 3, colour: 'red' }, [4, 5, 6])));`,
  hoisting: `
    function outer(value) { tell(typeof inner, typeof later); if (value) { var later = inner(value); } return later; function inner(given) { return given * 2; } }
    tell(outer(21), outer(0));`,
  classes: `
    class Shape { #sides; constructor(sides) { this.#sides = sides; } static make(count) { return new Shape(count); } get sides() { return this.#sides; } }
    class Square extends Shape { constructor() { super(4); } describe(prefix) { const text = prefix + this.sides; return text; } }
    tell(new Square().describe('square '), Shape.make(3).sides);`,
  loops: `
    const calls = [];
    outer: for (let index = 0; index < 4; index += 1) { for (const letter of 'ab') { if (index === 2) continue outer; calls.push(() => letter + index); } }
    try { null.missing; } catch ({ name }) { tell(name); }
    tell(calls.map((call) => call()).join(), [...(function* (limit) { for (let step = 0; step < limit; step += 1) yield step; })(3)].join());`,
};

// What a program tells, as text.
function toldBy(text) {
  const told = [];
  vm.runInNewContext(text, { tell: (...values) => told.push(values.join(' ')) });
  return told.join('\n');
}

function runs(expect) {
  for (const [name, text] of Object.entries(PROGRAMS)) {
    const mangled = mangle(text, { file: 'a.js', toplevel: true }).text;
    expect(`${name}: what the program tells`, toldBy(text), toldBy(mangled));
    expect(`${name}: is shorter`, true, mangled.length < text.length);
  }
}

module.exports = { runs };
