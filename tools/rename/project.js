'use strict';
// Renames what a module exports in all modules that entries reach. The proved renamer renames in each module, and the proved linker
// has to give the answers that it gave before: else nothing is changed.

const fs = require('fs');
const path = require('path');
const { RunFault } = require('../bolgwyr/faults.js');
const { linkSet } = require('../link/index.js');
const { exportedNames } = require('../link/ways.js');
const { analysed } = require('./analysed.js');
const { followersOf } = require('./followers.js');
const { leadsElsewhere } = require('./links.js');
const { RenameRefusal } = require('./refusal.js');
const { renameSpecifiers, renameSymbol } = require('./symbol.js');
const { symbolAt } = require('./symbol-at.js');
const { refuseWhole } = require('./wholes.js');

// Runs, and places a refusal in the module that it is about.
function inModule(module, run) {
  try {
    return run();
  } catch (error) {
    if (error instanceof RenameRefusal && error.file === undefined) {
      error.file = module.shown;
      error.placedIn(module.positions);
    }
    throw error;
  }
}

// The set that the entries reach, whole, and of a folder all that stands in it: a test imports, and nothing imports the test.
function linkedSet(entries, cwd) {
  const linked = linkSet(entries, { cwd, whole: true });
  const [fault] = linked.set.faults;
  if (fault !== undefined) {
    throw new RunFault(`${fault.entry}: ${fault.message}`);
  }
  return linked;
}

// A file that no parser reads may use the name, where its text has it.
function refuseUnread({ set }, name) {
  const others = new Set(set.others);
  const isUnread = ({ kind, isPackaged }) => !isPackaged && (kind === 'refused' || kind === 'unreadable');
  const unread = set.modules.filter(isUnread).find((module) => !others.has(module) || module.text === null || module.text.includes(name));
  if (unread !== undefined) {
    throw new RunFault(`${unread.shown}: ${unread.refusal.message}`);
  }
}

function realFile(full, file) {
  try {
    return fs.realpathSync(full);
  } catch {
    throw new RunFault(`${file}: no such file`);
  }
}

class Project {
  constructor(entries, cwd) {
    this.linked = linkedSet(entries, cwd);
    this.analyses = new Map();
  }

  moduleOf(file, cwd) {
    const real = realFile(path.resolve(cwd, file), file);
    const found = this.linked.set.modules.find((module) => module.file === real);
    if (found === undefined || found.kind !== 'module') {
      throw new RenameRefusal(found === undefined ? "the entries don't reach this file" : 'this file is no module of ECMAScript');
    }
    return found;
  }

  analysisOf(module) {
    if (!this.analyses.has(module)) {
      this.analyses.set(module, analysed(module.text, { filename: module.file, goal: 'module' }));
    }
    return this.analyses.get(module);
  }
}

// Whether the symbol is what the module exports under its name.
function isExported(module, symbol) {
  const entry = module.outline.exports.get(symbol.name);
  return symbol.scope === 0 && entry !== undefined && entry.specifier === null && entry.local === symbol.name;
}

function refuseImported(module, symbol) {
  const isImport = symbol.flags.some((flag) => flag.includes('Import'));
  if (isImport && module.outline.imports.some(({ local, name }) => local === symbol.name && name === local)) {
    throw new RenameRefusal(`\`${symbol.name}\` is imported: name the place where it is declared`, symbol.span);
  }
}

function refuseTaken(followers, to) {
  for (const module of followers.exporting) {
    if (exportedNames(module).has(to)) {
      const entry = module.outline.exports.get(to);
      const span = entry === undefined ? { start: 0, end: 0 } : entry.span;
      inModule(module, () => { throw new RenameRefusal(`this module exports \`${to}\` already`, span); });
    }
  }
}

// The new text of a module, with its tree.
function changeOf(project, module, { specifiers, isLocal, isExported: isDeclared }, { name, to }) {
  const [start] = specifiers.keys();
  if (module.isPackaged) {
    throw new RenameRefusal('this file is of a package', { start, end: start });
  }
  const analysis = project.analysisOf(module);
  if (!isLocal) {
    return renameSpecifiers(analysis, specifiers, to);
  }
  const local = analysis.report.symbols.find((one) => one.name === name && one.scope === 0);
  return renameSymbol(analysis, local, to, { isExported: isDeclared, specifiers });
}

function changesOf(project, followers, asked) {
  return [...followers.touched].map(([module, touched]) => {
    const found = inModule(module, () => changeOf(project, module, touched, asked));
    return { module, found };
  });
}

function refuseOtherLinks(project, changes, asked) {
  const trees = new Map(changes.map(({ module, found }) => [module, found.renamed.tree]));
  const other = leadsElsewhere(project.linked, trees, asked);
  if (other !== null) {
    inModule(other.module, () => { throw new RenameRefusal('this would lead elsewhere', other.span); });
  }
}

function warningsOf(project, followers, name) {
  const exporting = project.linked.set.entries.filter((entry) => followers.exporting.has(entry));
  return exporting.map((entry) => `\`${name}\` is exported by the entry ${entry.shown}: others may import it`);
}

function renamedInAll(project, module, symbol, to) {
  const { name } = symbol;
  const followers = followersOf(project.linked.set.modules, module, name);
  refuseTaken(followers, to);
  followers.wholes.forEach((whole) => inModule(whole.module, () => refuseWhole(project.analysisOf(whole.module), whole, name)));
  const changes = changesOf(project, followers, { name, to });
  refuseOtherLinks(project, changes, { name, to });
  return {
    changes: changes.map(({ module: { file, shown, text }, found }) => ({ file, shown, before: text, after: found.text, edits: found.edits })),
    warnings: [...changes.flatMap(({ found }) => found.warnings), ...warningsOf(project, followers, name)],
  };
}

function renamedHere(project, module, symbol, to) {
  refuseImported(module, symbol);
  const { text, edits, warnings } = renameSymbol(project.analysisOf(module), symbol, to);
  return { changes: [{ file: module.file, shown: module.shown, before: module.text, after: text, edits }], warnings };
}

// Options: `file`; `line` and `column`, or `name`; `to`; `entries`; `cwd`. Gives `{ changes, warnings }`, each change `{ file, shown,
// before, after, edits }`. Throws what `rename` throws; `file` of a RenameRefusal is that of its place.
function renameInProject({ file, line, column, name, to, entries, cwd = process.cwd() }) {
  const project = new Project(entries, cwd);
  const module = project.moduleOf(file, cwd);
  return inModule(module, () => {
    const symbol = symbolAt(project.analysisOf(module), { line, column, name });
    if (symbol.name === to) {
      return { changes: [], warnings: [] };
    }
    refuseUnread(project.linked, symbol.name);
    return isExported(module, symbol) ? renamedInAll(project, module, symbol, to) : renamedHere(project, module, symbol, to);
  });
}

module.exports = { renameInProject };
