'use strict';
// The set of modules that entries reach.
//
// For other tools: `moduleSet(entries, options)` reads the entries and what they reach, and gives
// {modules, entries, others, faults}. A module has `file`, `shown` (its name for people), `kind`, `text`, `positions` (of
// tools/analyse), `specifiers` and, with `trees: true`, `tree`, the JSON of its whole tree as bytes, with numbers of nodes as the
// programs tell them. A specifier has `text`, `span` (bytes of its literal), `way` (`import`, `export`, `dynamic`, `require` or
// `augment`), `typed` (types alone are wanted) and `to`, which is one of
//   {module}           a file of the set
//   {external, why}    nothing is known of it: why is `builtin`, `absent` (not installed), `package` (with `file`), `absolute`,
//                      `loader` or `ignored`
//   {nowhere}          it leads to no file: the text says why
// A rule on unresolved imports tells those with `to.nowhere`; a renamer across files goes over `specifiers` with `to.module`.
// A folder stands for what its package.json names, or its index file; where it has neither, and with `whole: true` in any case, for
// all source files below it, which `others` has beside `entries`.
// Options: `trees`; `packages: false` to leave out what stands below folders node_modules; `whole`; `cwd`, from which names are shown.

const fs = require('fs');
const path = require('path');
const { SourceModule, packageTypes, readModule } = require('./module.js');
const { Resolver } = require('./resolver.js');
const { isInPackage, kindOf } = require('./kinds.js');
const { filesOfFolder } = require('../check/sources.js');

// A file's name as people know it: from the folder where they are, and whole where it stands elsewhere.
function shownName(file, cwd) {
  const relative = path.relative(cwd, file);
  return relative === '' || relative.startsWith('..') || path.isAbsolute(relative) ? file : relative;
}

// What a folder means: what its package.json exports or names as its main file, or its index file, or its declarations.
function folderEntry(folder, resolver) {
  const from = path.join(folder, 'package.json');
  const own = packageName(from);
  const asked = [...(own === null ? [] : [[from, own]]), [from, '.'], [path.join(folder, 'index.ts'), '.']];
  const found = asked.map(([file, text]) => resolver.resolve(file, text, 'import'));
  return found.find(({ file }) => file !== undefined && !path.relative(folder, file).startsWith('..'));
}

function packageName(file) {
  try {
    const { name, exports } = JSON.parse(fs.readFileSync(file, 'utf8'));
    return typeof name === 'string' && exports !== undefined ? name : null;
  } catch {
    return null;
  }
}

// The files of a folder: that which it stands for, and all others that are asked for.
function filesOfEntry(folder, { resolver, whole }) {
  const entry = folderEntry(folder, resolver);
  const others = whole || entry === undefined ? filesOfFolder(folder) : [];
  if (entry === undefined && others.length === 0) {
    return { fault: 'a folder without source files' };
  }
  return { files: entry === undefined ? [] : [entry.file], others: others.map((file) => fs.realpathSync(file)) };
}

// The files that an entry names, or why there are none.
function entryFiles(name, set) {
  const file = path.resolve(set.cwd, name);
  const stat = fs.statSync(file, { throwIfNoEntry: false });
  if (stat === undefined) {
    return { fault: 'no such file' };
  }
  if (stat.isDirectory()) {
    return filesOfEntry(fs.realpathSync(file), set);
  }
  return kindOf(file) === 'source' ? { files: [fs.realpathSync(file)], others: [] } : { fault: 'no file of JavaScript or TypeScript' };
}

function addModule(set, file) {
  const known = set.byFile.get(file);
  if (known !== undefined) {
    return known;
  }
  const module = new SourceModule(file, shownName(file, set.cwd));
  module.number = set.modules.push(module) - 1;
  set.byFile.set(file, module);
  return module;
}

// Where a specifier of a module leads, with the module that it adds to the set.
function target(set, module, specifier) {
  const found = set.resolver.resolve(module.file, specifier.text, specifier.way);
  if (found.file === undefined) {
    return found;
  }
  if (!set.packages && isInPackage(found.file) && !module.isPackaged) {
    return { external: specifier.text, why: 'package', file: found.file };
  }
  return { module: addModule(set, found.file) };
}

// What modules of CommonJS require isn't followed, but for entries.
function addTargets(set, module, isEntry) {
  if (module.kind !== 'module' && !isEntry) {
    module.specifiers = [];
    return;
  }
  for (const specifier of module.specifiers) {
    specifier.to = target(set, module, specifier);
  }
}

function emptySet({ packages = true, trees = false, whole = false, cwd = process.cwd() }) {
  return {
    modules: [],
    byFile: new Map(),
    entries: [],
    others: [],
    faults: [],
    resolver: new Resolver(),
    typeOf: packageTypes(),
    packages,
    whole,
    keepTree: trees,
    cwd,
  };
}

function addEntries(set, names) {
  for (const name of names) {
    const { files = [], others = [], fault } = entryFiles(name, set);
    set.entries.push(...files.map((file) => addModule(set, file)));
    set.others.push(...others.map((file) => addModule(set, file)));
    if (fault !== undefined) {
      set.faults.push({ entry: name, message: fault });
    }
  }
}

function moduleSet(names, options = {}) {
  const set = emptySet(options);
  addEntries(set, names);
  const named = new Set(set.entries);
  const entries = new Set([...set.entries, ...set.others]);
  for (let at = 0; at < set.modules.length; at += 1) {
    const module = set.modules[at];
    const isEntry = entries.has(module);
    if (module.kind === 'source') {
      readModule(module, { typeOf: set.typeOf, isEntry, keepTree: set.keepTree });
      addTargets(set, module, isEntry);
    }
    if (named.has(module) && module.kind === 'unreadable') {
      set.faults.push({ entry: module.shown, message: module.refusal.message });
    }
  }
  return { modules: set.modules, entries: set.entries, others: set.others, faults: set.faults, cwd: set.cwd };
}

module.exports = { moduleSet };
