'use strict';
// What kind of file a specifier leads to, by its name.

const path = require('path');
const { builtinModules } = require('module');

const SOURCE = /\.(?:[cm]?[jt]s|[jt]sx)$/i;
const KINDS = [
  [SOURCE, 'source'],
  [/\.json$/i, 'json'],
  [/\.(?:css|scss|sass|less|styl)$/i, 'css'],
];

// `source`, `json`, `css`, or `asset` for all others.
function kindOf(file) {
  const found = KINDS.find(([ending]) => ending.test(file));
  return found === undefined ? 'asset' : found[1];
}

const isSource = (file) => kindOf(file) === 'source';
const isTyped = (file) => /\.(?:[cm]?ts|tsx)$/i.test(file);
const isDeclarations = (file) => /\.d\.[cm]?ts$/i.test(file);

// The kind that the name decides without the content: `module` or `commonjs`, else undefined.
function goalOfName(file) {
  if (/\.m[jt]s$/i.test(file)) {
    return 'module';
  }
  return /\.c[jt]s$/i.test(file) ? 'commonjs' : undefined;
}

const BUILTINS = new Set(builtinModules);
const isBuiltin = (text) => text.startsWith('node:') || BUILTINS.has(text);

// Whether a file is a package's: it stands below a folder node_modules.
const isInPackage = (file) => file.split(path.sep).includes('node_modules');

const isRelative = (text) => /^\.\.?(?:\/|$)/.test(text);

// The name of the package that a bare specifier begins with.
function packageOf(text) {
  const found = /^(?:@[^/]+\/)?[^/]+/.exec(text);
  return found === null ? text : found[0];
}

module.exports = { goalOfName, isBuiltin, isDeclarations, isInPackage, isRelative, isSource, isTyped, kindOf, packageOf };
