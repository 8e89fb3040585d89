'use strict';
// Which parsers can read a file: those of its project, beside this program, by NODE_PATH and where Debian puts them, in this
// order. One that can't be loaded, is older than the conversion knows or has no call to parse is passed over.

const fs = require('fs');
const path = require('path');
const { addDebian, DEBIAN, NODE_PATH } = require('./load');

// The oldest version of each parser that the conversion knows, and what shows that a module is that parser.
const KNOWN = {
  acorn: { since: '8.0', parses: ({ Parser }) => typeof Parser === 'function' && typeof Parser.parse === 'function' },
  'acorn-jsx': { since: '5.2', parses: (plugin) => typeof plugin === 'function' },
  typescript: { since: '4.8', parses: ({ createSourceFile }) => typeof createSourceFile === 'function' },
  '@babel/parser': { since: '7.16', parses: ({ parse }) => typeof parse === 'function' },
  '@babel/standalone': { since: '7.16', parses: ({ transform }) => typeof transform === 'function' },
};

// True where a version comes before another; both begin with two numbers.
function isBefore(version, wanted) {
  const [a, b] = [version, wanted].map((text) => text.split('.').map(Number));
  return a[0] < b[0] || (a[0] === b[0] && a[1] < b[1]);
}

function moduleAt(name, place) {
  const { since, parses } = KNOWN[name];
  try {
    const { version } = JSON.parse(fs.readFileSync(path.join(place, 'package.json'), 'utf8'));
    if (isBefore(version, since)) return null;
    addDebian();
    const module = require(place);
    return parses(module) ? { name, version, module } : null;
  } catch {
    return null;
  }
}

const modules = new Map(); // by place: the parser there, or null

function parserAt(name, place) {
  if (!modules.has(place)) modules.set(place, moduleAt(name, place));
  return modules.get(place);
}

const above = new Map(); // by folder and name: the places in the folders `node_modules` from there upwards

function placesAbove(folder, name) {
  const key = `${folder}\n${name}`;
  if (!above.has(key)) {
    const outer = path.dirname(folder);
    const further = outer === folder ? [] : placesAbove(outer, name);
    const place = path.join(folder, 'node_modules', name);
    above.set(key, fs.existsSync(place) ? [place, ...further] : further);
  }
  return above.get(key);
}

// The parsers of a name for the files of a folder, the nearest first; each is loaded when it is asked for.
function* parsersFor(name, folder) {
  const elsewhere = [...NODE_PATH, ...DEBIAN].map((outer) => path.join(outer, name));
  for (const place of new Set([...placesAbove(folder, name), ...placesAbove(__dirname, name), ...elsewhere])) {
    const parser = parserAt(name, place);
    if (parser !== null) yield parser;
  }
}

module.exports = { parsersFor, isBefore };
