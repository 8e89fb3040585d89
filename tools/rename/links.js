'use strict';
// Whether all imports and exports of a set lead where they led, once modules have new texts.

const { outcomes } = require('../link/linker.js');
const { outlineOf } = require('../link/outline.js');

// A module with another tree, whose specifiers lead where they led.
function withTree(module, tree) {
  const outline = outlineOf(tree);
  outline.specifiers.forEach((specifier, at) => {
    specifier.to = module.specifiers[at].to;
  });
  return Object.assign(Object.create(Object.getPrototypeOf(module)), module, { outline, specifiers: outline.specifiers });
}

const isSameEnd = (before, after) => before.word === after.word && before.symbol === after.symbol
  && (before.module === null ? after.module === null : after.module !== null && before.module.number === after.module.number);

// The first of two lists that leads elsewhere, or undefined. `nameOf` gives the name that each wants or exports.
function firstOther(before, after, { nameOf, isRenamed }) {
  return before.find((one, at) => {
    const other = after[at];
    const isNamed = other !== undefined && (nameOf(one) === nameOf(other) || isRenamed(nameOf(one), nameOf(other)));
    return !isNamed || one.module.number !== other.module.number || !isSameEnd(one.outcome, other.outcome);
  });
}

// Links the set with the new trees, and gives what leads elsewhere, `{ module, span }`, or null.
function leadsElsewhere({ set, outcomes: before }, trees, { name, to }) {
  const after = outcomes(set.modules.map((module) => (trees.has(module) ? withTree(module, trees.get(module)) : module)));
  const isRenamed = (old, now) => old === name && now === to;
  const wanted = firstOther(before.imports, after.imports, { nameOf: (one) => one.wanted.name, isRenamed });
  if (wanted !== undefined || before.imports.length !== after.imports.length) {
    return wanted === undefined ? { module: set.modules[0], span: { start: 0, end: 0 } } : { module: wanted.module, span: wanted.wanted.span };
  }
  const exported = firstOther(before.exports, after.exports, { nameOf: (one) => one.entry.name, isRenamed });
  return exported === undefined ? null : { module: exported.module, span: exported.entry.span };
}

module.exports = { leadsElsewhere };
