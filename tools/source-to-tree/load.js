'use strict';
// Finds modules: beside this program, by NODE_PATH, and where Debian puts them. What they load in turn is found there too.

const Module = require('module');
const path = require('path');
const { Refusal } = require('./refusal');

const DEBIAN = ['/usr/share/nodejs', '/usr/lib/nodejs'];
const NODE_PATH = (process.env.NODE_PATH || '').split(path.delimiter).filter(Boolean).map((folder) => path.resolve(folder));
let added = false;

// From here on Debian's modules are found by those that load them.
function addDebian() {
  if (added) return;
  added = true;
  process.env.NODE_PATH = [process.env.NODE_PATH, ...DEBIAN].filter(Boolean).join(path.delimiter);
  Module._initPaths();
}

const isMissing = (name) => new Refusal(`the module ${name} isn't installed: run tools/setup.sh`);

function load(name) {
  addDebian();
  try {
    return require(name);
  } catch (error) {
    if (error.code !== 'MODULE_NOT_FOUND') throw error;
    throw isMissing(name);
  }
}

module.exports = { load, addDebian, isMissing, DEBIAN, NODE_PATH };
