'use strict';
// Which imports of the modules that entries reach lead nowhere.

const { outcomes } = require('./linker.js');
const { findingsOf } = require('./findings.js');
const { moduleSet } = require('./set.js');

// Of a file that isn't read the beginning is the place.
function placeOf(module, span) {
  const placed = (byte) => (module.text === null ? { line: 1, column: 1 } : module.positions.placeOf(byte));
  const [from, to] = [placed(span.start), placed(span.end)];
  return { file: module.shown, line: from.line, column: from.column, endLine: to.line, endColumn: to.column, span };
}

// Which modules others add names to: what such a module exports isn't known whole.
function noteAugmented(modules) {
  for (const { specifiers } of modules) {
    for (const { way, to } of specifiers) {
      if (way === 'augment' && to.module !== undefined) {
        to.module.isAugmented = true;
      }
    }
  }
}

// The set, what the linker says of it, and what is wrong with it.
function linkSet(entries, options = {}) {
  const set = moduleSet(entries, { cwd: options.cwd, whole: options.whole });
  noteAugmented(set.modules);
  const told = set.modules.length === 0 ? { imports: [], exports: [] } : outcomes(set.modules);
  return { set, outcomes: told, ...findingsOf(set, told, options) };
}

function importObject({ module, wanted, outcome }) {
  return {
    ...placeOf(module, wanted.span),
    name: wanted.name,
    local: wanted.local,
    specifier: wanted.specifier.text,
    outcome: outcome.word,
    target: outcome.module === null ? null : outcome.module.shown,
  };
}

function specifierObject(module, { text, span, way, typed, to }) {
  const file = to.module === undefined ? to.file || null : to.module.shown;
  return { ...placeOf(module, span), text, way, typed, file, external: to.external || null, nowhere: to.nowhere || null };
}

function moduleObject(module) {
  return {
    file: module.shown,
    kind: module.kind,
    exports: module.kind === 'module' ? [...module.outline.exports.keys()] : [],
    specifiers: module.specifiers.map((specifier) => specifierObject(module, specifier)),
  };
}

function findingObject({ rule, module, span, message, related }) {
  const others = related.map((one) => ({ ...placeOf(one.module, one.span), message: one.message }));
  return { rule, ...placeOf(module, span), message, related: others };
}

function noteObject({ kind, module, span, name }) {
  return { kind, ...placeOf(module, span), name };
}

// Plain objects for other programs.
function answerOf({ set, outcomes: told, findings, notes }) {
  return {
    modules: set.modules.map(moduleObject),
    imports: told.imports.map(importObject),
    findings: findings.map(findingObject),
    notes: notes.map(noteObject),
    faults: set.faults,
  };
}

// Links the modules that files or folders reach. Throws a RunFault where the linker can't be run.
function link(entries, options = {}) {
  return answerOf(linkSet(entries, options));
}

module.exports = { answerOf, link, linkSet, moduleSet, placeOf };
