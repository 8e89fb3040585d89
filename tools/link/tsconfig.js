'use strict';
// Where `paths` and `baseUrl` of the nearest tsconfig.json (or jsconfig.json) lead a bare specifier.

const fs = require('fs');
const path = require('path');
const { load } = require('../source-to-tree/load.js');

const NAMES = ['tsconfig.json', 'jsconfig.json'];
const NONE = { file: null, baseUrl: undefined, patterns: [] };

// A pattern has at most one star, which stands for any text.
function patternOf([key, targets], base) {
  const star = key.indexOf('*');
  const before = star === -1 ? key : key.slice(0, star);
  const behind = star === -1 ? '' : key.slice(star + 1);
  return { key, exact: star === -1, before, behind, targets: targets.map((target) => path.resolve(base, target)) };
}

// What stands for the star, or undefined where the text doesn't fit.
function matched(pattern, text) {
  if (pattern.exact) {
    return text === pattern.key ? '' : undefined;
  }
  const { before, behind } = pattern;
  const fits = text.length >= before.length + behind.length && text.startsWith(before) && text.endsWith(behind);
  return fits ? text.slice(before.length, text.length - behind.length) : undefined;
}

// What the configuration says, with what it extends; TypeScript's own reader knows comments and `extends`.
function optionsOf(file) {
  const ts = load('typescript');
  const { config } = ts.readConfigFile(file, ts.sys.readFile);
  if (config === undefined) {
    return {};
  }
  const host = { ...ts.sys, readDirectory: () => [] };
  const { options } = ts.parseJsonConfigFileContent(config, host, path.dirname(file), undefined, file);
  const references = Array.isArray(config.references) ? config.references : [];
  return { ...options, references };
}

const hasPaths = (options) => options.paths !== undefined || options.baseUrl !== undefined;

// A configuration that only refers to others has the paths of the first that has some.
function optionsWithReferences(file) {
  const options = optionsOf(file);
  if (hasPaths(options) || options.references === undefined) {
    return { options, file };
  }
  for (const { path: text } of options.references.filter((one) => one && typeof one.path === 'string')) {
    const named = path.resolve(path.dirname(file), text);
    const referred = named.endsWith('.json') ? named : path.join(named, 'tsconfig.json');
    const found = fs.existsSync(referred) ? optionsOf(referred) : {};
    if (hasPaths(found)) {
      return { options: found, file: referred };
    }
  }
  return { options, file };
}

function configOf(name) {
  const { options, file } = optionsWithReferences(name);
  const base = options.baseUrl || options.pathsBasePath || path.dirname(file);
  const patterns = Object.entries(options.paths || {})
    .filter(([, targets]) => Array.isArray(targets))
    .map((entry) => patternOf(entry, base))
    .sort((a, b) => Number(b.exact) - Number(a.exact) || b.before.length - a.before.length);
  return { file, baseUrl: options.baseUrl, patterns };
}

// Makes a function from a folder to the configuration that holds there; each folder is looked at once.
function configurations() {
  const known = new Map();
  return function configurationOf(folder) {
    if (known.has(folder)) {
      return known.get(folder);
    }
    const name = NAMES.map((one) => path.join(folder, one)).find((file) => fs.existsSync(file));
    const above = path.dirname(folder);
    const config = name !== undefined ? configOf(name) : above === folder ? NONE : configurationOf(above);
    known.set(folder, config);
    return config;
  };
}

// Files without their endings that the text may mean, in order; `pattern` is that of `paths` which fits, if one does.
function candidates(config, text) {
  for (const pattern of config.patterns) {
    const star = matched(pattern, text);
    if (star !== undefined) {
      return { pattern, files: pattern.targets.map((target) => target.replace('*', () => star)) };
    }
  }
  return { pattern: null, files: config.baseUrl === undefined ? [] : [path.resolve(config.baseUrl, text)] };
}

module.exports = { candidates, configurations };
