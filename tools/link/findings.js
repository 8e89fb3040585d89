'use strict';
// What is wrong with a set of modules, each finding at its place.
//
// A finding is {rule, module, span, message, related}; `related` are {module, span, message}. The rules:
//   unresolved-import     a specifier leads to no file
//   uninstalled-package   a package isn't installed (told with `strict` alone)
//   missing-export        nothing exports the name
//   circular-export       a name leads only to itself
//   ambiguous-export      a name leads to several things that differ
//   duplicate-export      a module exports a name twice
//   unreadable-module, unparsable-module

const fs = require('fs');
const path = require('path');
const { isRelative } = require('./kinds.js');
const { nearest } = require('./near.js');
const { differingWays, exportedNames, firstSteps, followers, importOf, ringFrom, unknownness } = require('./ways.js');

// A module's name in a message: a path that begins with a dot, or with the root.
function named(module) {
  return path.isAbsolute(module.shown) ? module.shown : `./${module.shown}`;
}

const meant = (near) => (near === undefined ? '' : ` (did you mean '${near}'?)`);

// So many names are collected at most, and the ways of so many ambiguous names are told, so that hostile input costs no more
// than it is long.
const MOST_NAMES = 2_000_000;
const MOST_AMBIGUOUS = 200;

// The names of which one may be meant: also those that come by stars, as long as there aren't too many of them.
function namesOf(context, module) {
  if (context.collected > MOST_NAMES) {
    return new Set(module.outline.exports.keys());
  }
  if (!context.names.has(module)) {
    const names = exportedNames(module);
    context.collected += names.size;
    context.names.set(module, names);
  }
  return context.names.get(module);
}

// What a step of a way does, told at its place.
function stepMessage({ to, name, isStar }) {
  if (to.end !== undefined) {
    return `'${name}' is exported here`;
  }
  const source = to.module === undefined ? to.unknown : named(to.module);
  return isStar ? `all names of ${source} are passed on here` : `'${name}' is '${to.name}' of ${source}`;
}

// How many steps of a way are told.
const MOST_STEPS = 10;

const steps = (way) => way.slice(0, MOST_STEPS).map((step) => ({ module: step.module, span: step.span, message: stepMessage(step) }));

// What to say of a name that a module lacks.
function lackOf(context, { module, name }, local) {
  if (module.kind === 'json' || module.kind === 'script') {
    return `'${name}' is not exported by ${named(module)}: it has a default export only`;
  }
  const entry = module.outline.exports.get(name);
  if (entry !== undefined) {
    return `'${name}' is exported by ${named(module)}, but '${entry.local}' is not declared there`;
  }
  const names = namesOf(context, module);
  if (name === 'default') {
    return `${named(module)} has no default export${names.has(local) ? meant(`{ ${local} }`) : ''}`;
  }
  const near = context.nearest(name, names);
  const isDefaultOnly = near === undefined && names.size === 1 && names.has('default');
  return `'${name}' is not exported by ${named(module)}${isDefaultOnly ? ': it has a default export only' : meant(near)}`;
}

function missing(context, from, { local }) {
  const last = context.lastOf(from);
  const way = firstSteps(from, MOST_STEPS);
  return { rule: 'missing-export', message: lackOf(context, last, way.length === 0 ? local : undefined), related: steps(way) };
}

// Where the ring is one of `export *` alone, none of its modules names what is wanted: they don't export it.
function circular(context, from, wanted) {
  const { way, at, isOfStars } = ringFrom(from, context.rings);
  if (isOfStars) {
    return missing(context, from, wanted);
  }
  const shown = way.slice(at, at + MOST_STEPS);
  const round = [...shown, ...way.slice(0, Math.min(at, MOST_STEPS - shown.length))];
  const length = way.length > MOST_STEPS ? `, round ${way.length} exports` : '';
  return { rule: 'circular-export', message: `'${from.name}' leads only to itself${length}`, related: steps(round) };
}

function ambiguous(context, from) {
  context.ambiguous += 1;
  const ways = context.ambiguous > MOST_AMBIGUOUS ? [] : differingWays(from);
  if (ways.length === 0) {
    return { rule: 'ambiguous-export', message: `'${from.name}' is ambiguous: several modules export it`, related: [] };
  }
  const ends = ways.map((way) => named(way[way.length - 1].module));
  const message = `'${from.name}' is ambiguous: ${ends.join(' and ')} both export it`;
  return { rule: 'ambiguous-export', message, related: ways.flatMap(steps) };
}

const FAULTS = { missing, ring: circular, ambiguous };

// The finding on a name that is wanted of a module. There is none where a module of which nothing is known may export it.
function nameFinding(context, { module, span, from, local, word }) {
  if (word !== 'ambiguous' && context.mayBeUnknown(from)) {
    context.notes.push({ kind: 'unknown', module, span, name: from.name });
    return [];
  }
  return [{ ...FAULTS[word](context, from, { local }), module, span }];
}

const hasFault = ({ outcome }) => Object.hasOwn(FAULTS, outcome.word);

function importFindings(context, imports) {
  return imports.filter(hasFault).flatMap(({ module, wanted, outcome }) => {
    const from = { module: wanted.specifier.to.module, name: wanted.name };
    return nameFinding(context, { module, span: wanted.span, from, local: wanted.local, word: outcome.word });
  });
}

// An export that leads nowhere is told where it stands; one of a name that the module imports was told at the import.
function exportFindings(context, exports) {
  const isOwn = ({ module, entry }) => entry.what === 'passed' || importOf(module, entry.local) === undefined;
  return exports.filter(hasFault).filter(isOwn).flatMap(({ module, entry, outcome }) => {
    const to = entry.specifier === null ? null : entry.specifier.to.module;
    const from = to === null ? { module, name: entry.name } : { module: to, name: entry.local };
    return nameFinding(context, { module, span: entry.span, from, local: undefined, word: outcome.word });
  });
}

const ENDING = /(?:\.d)?\.[a-z]+$/i;
const stemOf = (file) => file.replace(ENDING, '');
const endingOf = (file) => (ENDING.exec(file) || [''])[0];

// The file of the folder that the specifier may mean: the same name with another ending, or else a name that is near.
function nearFile(context, wanted, files) {
  const ending = endingOf(wanted);
  const stem = stemOf(wanted);
  const same = files.find((file) => stemOf(file) === stem && file !== wanted);
  if (same !== undefined) {
    return same;
  }
  const others = files.filter((file) => ending === '' || endingOf(file) === ending);
  const near = context.nearest(stem, others.map(stemOf));
  return near === undefined ? undefined : `${near}${ending}`;
}

function nearPath(context, module, text) {
  const wanted = path.basename(text);
  const folder = path.resolve(path.dirname(module.file), path.dirname(text));
  if (!context.folders.has(folder)) {
    context.folders.set(folder, listed(folder));
  }
  const near = text.endsWith(wanted) ? nearFile(context, wanted, context.folders.get(folder)) : undefined;
  return near === undefined ? undefined : text.slice(0, text.length - wanted.length) + near;
}

function listed(folder) {
  try {
    return fs.readdirSync(folder);
  } catch {
    return [];
  }
}

// What is wrong with where a specifier leads: {rule, message}, or null.
function specifierFault(context, module, { to, text }) {
  if (to.nowhere !== undefined) {
    const near = isRelative(text) ? nearPath(context, module, text) : undefined;
    return { rule: 'unresolved-import', message: `${to.nowhere}${meant(near)}` };
  }
  if (to.why === 'absent') {
    return context.strict ? { rule: 'uninstalled-package', message: `'${text}' is not installed` } : null;
  }
  if (to.module !== undefined && to.module.kind === 'unreadable' && !to.module.isPackaged) {
    return { rule: 'unreadable-module', message: `'${text}' leads to ${named(to.module)}: ${to.module.refusal.message}` };
  }
  return null;
}

function specifierFindings(context, module) {
  return module.specifiers.flatMap((specifier) => {
    const { to, span, text } = specifier;
    if (to.why === 'absent') {
      context.notes.push({ kind: 'absent', module, span, name: text });
    }
    const fault = specifierFault(context, module, specifier);
    return fault === null ? [] : [{ ...fault, module, span, related: [] }];
  });
}

// The byte of a place in the string, as spans have it.
function spanAt(module, index) {
  const start = Buffer.byteLength(module.text.slice(0, index ?? 0), 'utf8');
  return { start, end: start };
}

function duplicateFinding(module, { name, span, first }) {
  const related = [{ module, span: first, message: 'it is exported here' }];
  return { rule: 'duplicate-export', module, span, message: `'${name}' is exported twice`, related };
}

function moduleFindings(context, module) {
  if (module.kind === 'refused') {
    const span = spanAt(module, module.refusal.index);
    return [{ rule: 'unparsable-module', module, span, message: module.refusal.message, related: [] }];
  }
  const repeated = module.outline === null ? [] : module.outline.repeated;
  return [...specifierFindings(context, module), ...repeated.map((one) => duplicateFinding(module, one))];
}

function inOrder(a, b) {
  return a.module.number - b.module.number || a.span.start - b.span.start || a.span.end - b.span.end;
}

// All findings, and notes on what isn't known, in the order of modules and places. What stands in packages is told where
// `packages` is set, and where an entry is a file of a package.
function findingsOf({ modules, entries }, outcomes, { strict = false, packages = false }) {
  const context = {
    strict,
    nearest: nearest(),
    mayBeUnknown: unknownness(),
    lastOf: followers(),
    names: new Map(),
    collected: 0,
    ambiguous: 0,
    rings: new Map(),
    folders: new Map(),
    notes: [],
  };
  const tellsPackages = packages || entries.some((entry) => entry.isPackaged);
  const isTold = ({ module }) => tellsPackages || !module.isPackaged;
  const told = modules.filter((module) => isTold({ module }));
  const all = [
    ...told.flatMap((module) => moduleFindings(context, module)),
    ...importFindings(context, outcomes.imports.filter(isTold)),
    ...exportFindings(context, outcomes.exports.filter(isTold)),
  ];
  return { findings: all.sort(inOrder), notes: context.notes.sort(inOrder) };
}

module.exports = { findingsOf };
