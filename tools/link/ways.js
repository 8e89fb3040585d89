'use strict';
// The ways by which a name leads through the modules of a set, to be shown where the linker found no one answer.
//
// A step leads from a name that a module exports to the next: {to, module, name, span, isStar}, where the place is that of
// the export which leads on, and `to` is {module, name}, {end} or, where nothing is known, {unknown}. Each look is linear in
// what it reaches.

const { isDeclarations } = require('./kinds.js');

const keyOf = ({ module, name }) => `${module.number} ${name}`;

function importOf(module, local) {
  if (module.importsByLocal === undefined) {
    module.importsByLocal = new Map();
    for (const one of module.outline.imports) {
      if (!module.importsByLocal.has(one.local)) {
        module.importsByLocal.set(one.local, one);
      }
    }
  }
  return module.importsByLocal.get(local);
}

// Where a name that is wanted of a specifier's module leads; a name of null wants all of it.
function wantedOf({ to, text }, name) {
  if (to.module === undefined || !to.module.isLinked) {
    return { unknown: to.module === undefined ? to.external || text : to.module.shown };
  }
  return name === null ? { end: `all of ${to.module.number}` } : { module: to.module, name };
}

function listedStep(module, entry) {
  const imported = importOf(module, entry.local);
  if (imported !== undefined) {
    return [wantedOf(imported.specifier, imported.name)];
  }
  return module.outline.declared.has(entry.local) ? [{ end: `${module.number} ${entry.local}` }] : [];
}

// Where an export that stands in the module leads.
const TARGETS = {
  listed: listedStep,
  passed: (module, entry) => [wantedOf(entry.specifier, entry.local)],
  collected: (module, entry) => [wantedOf(entry.specifier, null)],
  declared: (module, entry) => [{ end: `${module.number} ${entry.local}` }],
  default: (module, entry) => [{ end: entry.local === null ? `default of ${module.number}` : `${module.number} ${entry.local}` }],
};

// What else may export a name: other modules add to it, and for declarations of a package without a default export TypeScript
// may make one, by its settings.
function unknownOf(module, name) {
  const made = name === 'default' && isDeclarations(module.file) ? ['a default export that TypeScript makes'] : [];
  return module.isAugmented ? ['a module that adds to it', ...made] : made;
}

const BEGINNING = { start: 0, end: 0 };

// The steps from a name that a module exports.
function stepsFrom({ module, name }) {
  const step = (to, span, isStar = false) => ({ to, module, name, span, isStar });
  if (module.kind !== 'module') {
    return name === 'default' ? [step({ end: `default of ${module.number}` }, BEGINNING)] : [];
  }
  const entry = module.outline.exports.get(name);
  if (entry !== undefined) {
    return TARGETS[entry.what](module, entry).map((to) => step(to, entry.span));
  }
  const unknown = unknownOf(module, name).map((what) => step({ unknown: what }, BEGINNING));
  const stars = name === 'default' ? [] : module.outline.stars;
  return [...unknown, ...stars.map((star) => step(wantedOf(star.specifier, name), star.span, true))];
}

// All that a name reaches, nearest first: {ends, unknown}. Each has `before`, by which the way there is found. Names that
// are `closed` aren't gone on from.
function reached(from, closed = new Set()) {
  const names = closed.has(keyOf(from)) ? [] : [{ ...from, before: null }];
  const seen = new Set([keyOf(from)]);
  const found = { seen, ends: [], unknown: [] };
  for (let at = 0; at < names.length; at += 1) {
    for (const step of stepsFrom(names[at])) {
      const { to } = step;
      const next = { ...to, before: { name: names[at], step } };
      if (to.end !== undefined) {
        found.ends.push(next);
      } else if (to.unknown !== undefined) {
        found.unknown.push(next);
      } else if (!seen.has(keyOf(to)) && !closed.has(keyOf(to))) {
        seen.add(keyOf(to));
        names.push(next);
      }
    }
  }
  return found;
}

// Makes a function that says whether a name may come from where nothing is known. What it looked at once it doesn't look at again.
function unknownness() {
  const closed = new Set();
  return function mayBeUnknown(from) {
    const { seen, unknown } = reached(from, closed);
    if (unknown.length > 0) {
      return true;
    }
    seen.forEach((key) => closed.add(key));
    return false;
  };
}

// The steps of the way to what was reached.
function wayTo(end) {
  const steps = [];
  for (let at = end; at.before !== null; at = at.before.name) {
    steps.push(at.before.step);
  }
  return steps.reverse();
}

// The ways to two ends that differ.
function differingWays(from) {
  const { ends, unknown } = reached(from);
  const all = [...ends, ...unknown].map((one) => ({ ...one, is: one.end || `unknown ${one.unknown}` }));
  const other = all.find((one) => one.is !== all[0].is);
  return other === undefined ? [] : [wayTo(all[0]), wayTo(other)];
}

// Goes on from a name, one open name after the other, to the first name that comes again, and gives the way round. What is
// known of other rings ends the walk: `rings` has, by name, the way round on which it stands and its place there.
function ringFrom(from, rings) {
  const path = [{ name: from, steps: stepsFrom(from), at: 0 }];
  const open = new Map([[keyOf(from), 0]]);
  const done = new Set();
  while (path.length > 0) {
    const top = path[path.length - 1];
    if (rings.has(keyOf(top.name))) {
      return rings.get(keyOf(top.name));
    }
    const step = top.steps[top.at];
    top.at += 1;
    if (step === undefined) {
      path.pop();
      open.delete(keyOf(top.name));
      done.add(keyOf(top.name));
    } else if (step.to.module !== undefined && open.has(keyOf(step.to))) {
      return noteRing(path.slice(open.get(keyOf(step.to))), rings);
    } else if (step.to.module !== undefined && !done.has(keyOf(step.to))) {
      open.set(keyOf(step.to), path.length);
      path.push({ name: step.to, steps: stepsFrom(step.to), at: 0 });
    }
  }
  return { way: [], at: 0, isOfStars: true };
}

function noteRing(path, rings) {
  const way = path.map((one) => one.steps[one.at - 1]);
  const isOfStars = way.every(({ isStar }) => isStar);
  path.forEach((one, at) => rings.set(keyOf(one.name), { way, at, isOfStars }));
  return { way, at: 0, isOfStars };
}

// The next name, where an export that stands in a module passes a name on.
function passedOn(from) {
  const [step] = stepsFrom(from);
  return step === undefined || step.isStar || step.to.module === undefined ? null : step;
}

// Makes a function that follows a name as long as exports that stand in modules pass it on, and gives the last name. Where it
// went once it doesn't go again.
function followers() {
  const lasts = new Map();
  return function lastOf(from) {
    const seen = new Set();
    let at = from;
    let step = passedOn(at);
    while (step !== null && !seen.has(keyOf(at)) && !lasts.has(keyOf(at))) {
      seen.add(keyOf(at));
      at = step.to;
      step = passedOn(at);
    }
    const last = lasts.get(keyOf(at)) || at;
    seen.forEach((key) => lasts.set(key, last));
    return last;
  };
}

// So many first steps by which exports pass a name on.
function firstSteps(from, most) {
  const steps = [];
  let step = passedOn(from);
  while (step !== null && steps.length < most) {
    steps.push(step);
    step = passedOn(step.to);
  }
  return steps;
}

// The names that a module exports, with those that it passes on from others by `export *`.
function exportedNames(module) {
  const names = new Set();
  const modules = [module];
  const seen = new Set(modules);
  for (const one of modules) {
    if (one.kind !== 'module') {
      names.add('default');
      continue;
    }
    for (const name of one.outline.exports.keys()) {
      if (one === module || name !== 'default') {
        names.add(name);
      }
    }
    for (const { specifier: { to } } of one.outline.stars) {
      if (to.module !== undefined && to.module.isLinked && !seen.has(to.module)) {
        seen.add(to.module);
        modules.push(to.module);
      }
    }
  }
  return names;
}

module.exports = { differingWays, exportedNames, firstSteps, followers, importOf, ringFrom, unknownness };
