'use strict';
// Modules of this repository as one script for a page. Each stays as it is, in a function of its own that gets `module` and
// `require`; so what a page decides is decided by the code that the commands run.

const fs = require('fs');
const path = require('path');

const REQUIRE = /\brequire\('(\.{1,2}\/[^']+)'\)/g;

// The modules that one reaches, with those first that others want.
function reached(file, found = new Map()) {
  if (found.has(file)) {
    return found;
  }
  const text = fs.readFileSync(file, 'utf8');
  found.set(file, null);
  const names = new Map([...text.matchAll(REQUIRE)].map(([, name]) => [name, require.resolve(path.resolve(path.dirname(file), name))]));
  names.forEach((needed) => reached(needed, found));
  found.set(file, { text, names });
  return found;
}

// A module whose names lead to the numbers of others.
function wrapped({ text, names }, numbers) {
  const body = text.replace(REQUIRE, (whole, name) => `require(${numbers.get(names.get(name))})`);
  return `(module, require) => {\n${body}}`;
}

// The script. A page ends at the first end of a script, wherever that stands.
function bundle(entry) {
  const modules = reached(require.resolve(entry));
  const numbers = new Map([...modules.keys()].map((file, number) => [file, number]));
  const script = `(() => {
const modules = [
${[...modules.values()].map((one) => wrapped(one, numbers)).join(',\n')},
];
const made = new Map();
function load(number) {
  if (!made.has(number)) {
    const module = { exports: {} };
    made.set(number, module);
    modules[number](module, load);
  }
  return made.get(number).exports;
}
load(${numbers.get(require.resolve(entry))});
})();
`;
  return script.replace(/<(?=\/script|!--)/gi, '\\x3c');
}

module.exports = { bundle };
