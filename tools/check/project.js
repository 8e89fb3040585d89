'use strict';
// A project: the modules that entries reach, as files to check, and imports that lead nowhere as findings of these files.

const fs = require('fs');
const path = require('path');
const { convertText } = require('../analyse/tree.js');
const { Refusal } = require('../analyse/refusal.js');
const { linkSet, placeOf } = require('../link/index.js');
const { isSource } = require('../link/kinds.js');
const { askedOf, isIgnored } = require('./comments.js');
const { SYNTAX, UNRESOLVED, isOn } = require('./rules.js');

// One name for each file, by which files of the words and modules are the same.
function realPath(file) {
  try {
    return fs.realpathSync(file);
  } catch {
    return path.resolve(file);
  }
}

// What the entries reach, linked.
function readProject(entries) {
  const { set, findings } = linkSet(entries);
  return { modules: set.modules, entries: new Set([...set.entries, ...set.others]), faults: set.faults, findings };
}

// The files to check where none is named: all but those of packages. An entry counts as named.
function filesOfProject({ modules, entries }) {
  const own = modules.filter((module) => isSource(module.file) && (entries.has(module) || !module.isPackaged));
  return own.map((module) => ({ file: module.shown, isNamed: entries.has(module) }));
}

// The module that a finding calls unreadable or unparsable, else undefined.
function faultyModule({ rule, module, span }) {
  if (rule === 'unparsable-module') {
    return module;
  }
  return rule === 'unreadable-module' ? module.specifiers.find((specifier) => specifier.span === span)?.to.module : undefined;
}

// Whether checking the file told already what a finding of the linker says.
function isToldAlready(finding, resultOf) {
  const faulty = faultyModule(finding);
  if (faulty !== undefined) {
    const result = resultOf(faulty);
    return result !== undefined && (result.failure !== undefined || result.findings.some(({ rule }) => rule === SYNTAX));
  }
  const isSame = ({ rule, span }) => rule === 'early-error' && span.start === finding.span.start;
  return finding.rule === 'duplicate-export' && resultOf(finding.module)?.findings.some(isSame) === true;
}

const MAY_IGNORE = /bolgwyr-ignore-/;

// What comments of a module leave out. Where no parser reads it, there are none.
function ignoredIn({ text, positions }, name, { parser, goal }) {
  try {
    return askedOf({ text, positions, tree: convertText(text, { file: name, parser, goal }) }).ignored;
  } catch (error) {
    if (!(error instanceof Refusal)) {
      throw error;
    }
    return null;
  }
}

// A place that belongs to a finding. Where it stands in another file, that is named.
function relatedOf(module, other) {
  const { file, ...place } = placeOf(other.module, other.span);
  return { message: other.message, ...place, ...(other.module !== module && { file }) };
}

function toldOf({ module, span, message, related }, severity) {
  const { file, ...place } = placeOf(module, span);
  return { rule: UNRESOLVED, severity, message, ...place, related: related.map((other) => relatedOf(module, other)) };
}

// The findings of one module in the form of all others, but for those that its settings and comments leave out.
function toldIn(module, findings, { name, settings }) {
  const rule = settings.rules[UNRESOLVED];
  if (!isOn(rule)) {
    return [];
  }
  const told = findings.map((finding) => toldOf(finding, rule.severity));
  const ignored = MAY_IGNORE.test(module.text) ? ignoredIn(module, name, settings) : null;
  return ignored === null ? told : told.filter((finding) => !isIgnored(ignored, finding));
}

// The positions in other files that findings speak of, by the names of the files.
function othersOf(findings) {
  const modules = findings.flatMap(({ related }) => related.map((other) => other.module));
  return new Map(modules.filter(({ text }) => text !== null).map((module) => [module.shown, module.positions]));
}

const inOrder = (left, right) => left.line - right.line || left.column - right.column;

function groupedByModule(findings) {
  const groups = new Map();
  for (const finding of findings) {
    groups.set(finding.module, groups.get(finding.module) ?? []);
    groups.get(finding.module).push(finding);
  }
  return groups;
}

// An entry that can't be read has no answer, unless it was checked and has one already.
function failuresOf({ faults }, results) {
  const left = faults.filter(({ entry }) => !results.has(realPath(entry)));
  return left.map(({ entry, message }) => ({ file: entry, findings: [], failure: message }));
}

// The results of files with what linking found besides. `jobOf` tells how a file is checked, and null for one that its
// configuration leaves out.
function withProject(results, jobs, project, jobOf) {
  const places = new Map(jobs.map(({ file }, place) => [realPath(file), place]));
  const all = [...results];
  const resultOf = (module) => results[places.get(module.file)];
  const left = project.findings.filter((finding) => !isToldAlready(finding, resultOf));
  for (const [module, findings] of groupedByModule(left)) {
    const place = places.get(module.file);
    const job = place === undefined ? jobOf({ file: module.shown, isNamed: project.entries.has(module) }) : jobs[place];
    const told = job === null ? [] : toldIn(module, findings, job);
    if (told.length > 0) {
      const result = place === undefined ? { file: job.name, findings: [] } : results[place];
      const merged = [...result.findings, ...told].sort(inOrder);
      all[place ?? all.length] = { ...result, text: module.text, findings: merged, others: othersOf(findings) };
    }
  }
  return [...all, ...failuresOf(project, places)];
}

module.exports = { filesOfProject, readProject, withProject };
