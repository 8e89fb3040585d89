'use strict';
// Findings of earlier runs, by the bytes of the file and all else that they depend on. A cache that can't be read or written
// is passed over.

const fs = require('fs');
const os = require('os');
const path = require('path');

const FILE = 'findings.json';

// As many entries as a cache keeps; those that were used last stay.
const MOST = 20_000;

// The folder for what this project keeps: its node_modules, else the user's folder for caches.
function cacheFolder(from) {
  for (let at = path.resolve(from); ; at = path.dirname(at)) {
    const modules = path.join(at, 'node_modules');
    if (fs.existsSync(path.join(at, 'package.json')) && fs.existsSync(modules)) {
      return path.join(modules, '.cache', 'bolgwyr');
    }
    if (path.dirname(at) === at) {
      return path.join(process.env.XDG_CACHE_HOME || path.join(os.homedir(), '.cache'), 'bolgwyr');
    }
  }
}

function readEntries(file) {
  try {
    const entries = JSON.parse(fs.readFileSync(file, 'utf8'));
    return new Map(entries.filter(([key, findings]) => typeof key === 'string' && Array.isArray(findings)));
  } catch {
    return new Map();
  }
}

function removeIfThere(file) {
  if (fs.existsSync(file)) {
    fs.rmSync(file);
  }
}

class Cache {
  // `stamp` stands for the tools and programs.
  constructor(folder, stamp) {
    this.file = path.join(folder, FILE);
    this.stamp = stamp;
    this.entries = readEntries(this.file);
    this.isChanged = false;
  }

  get isEmpty() {
    return this.entries.size === 0;
  }

  // The findings of a key, which was used last from now on.
  get(key) {
    const findings = this.entries.get(key);
    if (findings !== undefined) {
      this.entries.delete(key);
      this.entries.set(key, findings);
    }
    return findings;
  }

  set(key, findings) {
    this.entries.set(key, findings);
    this.isChanged = true;
  }

  // Writes beside the file first, so that who reads it finds the one or the other.
  save() {
    if (!this.isChanged) {
      return;
    }
    const part = `${this.file}.${process.pid}`;
    try {
      fs.mkdirSync(path.dirname(this.file), { recursive: true });
      fs.writeFileSync(part, JSON.stringify([...this.entries].slice(-MOST)));
      fs.renameSync(part, this.file);
    } catch {
      removeIfThere(part);
    }
  }
}

// In the place of a cache, where none is wanted.
const NO_CACHE = { stamp: '', isEmpty: true, get: () => undefined, set() {}, save() {} };

module.exports = { Cache, NO_CACHE, cacheFolder };
