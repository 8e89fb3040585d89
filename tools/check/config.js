'use strict';
// bolgwyr.json: found in the folder of a file or the nearest one around it.

const fs = require('fs');
const path = require('path');
const { UsageFault } = require('../bolgwyr/faults.js');
const { load } = require('../source-to-tree/load.js');
const { NOTHING, SettingFault, isObject, readEnvironments, readGlobals, readIgnore, readRules } = require('./settings.js');

const FILE = 'bolgwyr.json';

const KEYS = { rules: readRules, globals: readGlobals, env: readEnvironments, ignore: readIgnore };

function parse(text) {
  try {
    return JSON.parse(text);
  } catch (error) {
    throw new SettingFault(error.message);
  }
}

// The configuration that an object stands for. Helpers of editors may say in `$schema` what a file is.
function readConfig(value) {
  if (!isObject(value)) {
    throw new SettingFault('an object is wanted');
  }
  const stranger = Object.keys(value).find((key) => key !== '$schema' && !Object.hasOwn(KEYS, key));
  if (stranger !== undefined) {
    throw new SettingFault(`there is no setting ${JSON.stringify(stranger)}; there are ${Object.keys(KEYS).join(', ')}`);
  }
  const read = Object.keys(KEYS).filter((key) => value[key] !== undefined).map((key) => [key, KEYS[key](value[key])]);
  return { ...NOTHING, ...Object.fromEntries(read) };
}

function withIgnores(config, folder) {
  if (config.ignore.length === 0) {
    return { ...config, ignores: () => false };
  }
  const patterns = load('ignore')().add(config.ignore);
  return { ...config, ignores: (file) => patterns.ignores(path.relative(folder, file).split(path.sep).join('/')) };
}

// The configuration of this file; one that is wrong ends the command.
function loadConfig(file) {
  try {
    return withIgnores(readConfig(parse(fs.readFileSync(file, 'utf8'))), path.dirname(file));
  } catch (error) {
    if (error instanceof SettingFault || error.code !== undefined) {
      throw new UsageFault(`${file}: ${error.message.replace(/\s*[\r\n]+\s*/g, ' ')}`);
    }
    throw error;
  }
}

const EMPTY = { ...NOTHING, ignores: () => false };

// Finds the configuration of files, each folder's once. A file that is named is that of all.
class Configs {
  constructor(named) {
    this.named = named === undefined ? null : loadConfig(path.resolve(named));
    this.folders = new Map();
  }

  of(file) {
    return this.named ?? this.ofFolder(path.dirname(path.resolve(file)));
  }

  ofFolder(folder) {
    if (!this.folders.has(folder)) {
      this.folders.set(folder, this.find(folder));
    }
    return this.folders.get(folder);
  }

  find(folder) {
    const file = path.join(folder, FILE);
    if (fs.existsSync(file)) {
      return loadConfig(file);
    }
    const around = path.dirname(folder);
    return around === folder ? EMPTY : this.ofFolder(around);
  }
}

module.exports = { Configs, readConfig };
