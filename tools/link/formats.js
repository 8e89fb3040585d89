'use strict';
// Findings as text: for people with their lines of source, one a line for other tools, or as JSON.

const { excerpt } = require('../analyse/excerpt.js');
const { printable } = require('../analyse/refusal.js');
const { visible } = require('../analyse/visible.js');
const { answerOf, placeOf } = require('./index.js');

function placed(module, span) {
  const { file, line, column } = placeOf(module, span);
  return `${printable(file)}:${line}:${column}`;
}

const lineOf = ({ module, span, message }) => `${placed(module, span)}: ${visible(message)}`;

function prettyLines(finding) {
  const related = finding.related.map((one) => `  ${lineOf(one)}`);
  return [lineOf(finding), ...excerpt(finding.module.positions, finding.span, null), ...related];
}

const counted = (number, word) => `${number} ${word}${number === 1 ? '' : 's'}`;

const listOf = (notes) => [...new Set(notes.map((note) => visible(note.name)))].sort();

// What isn't known, in a line for each cause.
function noteLines(notes) {
  const absent = listOf(notes.filter(({ kind }) => kind === 'absent'));
  const unknown = notes.filter(({ kind }) => kind === 'unknown');
  const lines = absent.length === 0 ? [] : [`not installed, so nothing is known of them: ${absent.join(', ')}`];
  if (unknown.length > 0) {
    const names = listOf(unknown).join(', ');
    lines.push(`${counted(unknown.length, 'name')} may come from modules of which nothing is known: ${names}`);
  }
  return lines;
}

function pretty(linked) {
  const { set, outcomes, findings, notes } = linked;
  const linkedModules = set.modules.filter((module) => module.kind === 'module');
  const sums = [[linkedModules, 'module'], [outcomes.imports, 'import'], [findings, 'finding']];
  const sum = sums.map(([list, word]) => counted(list.length, word)).join(', ');
  return [...findings.flatMap(prettyLines), ...noteLines(notes), sum];
}

const unix = ({ findings }) => findings.map(lineOf);

function json(linked) {
  const { findings, notes, faults, modules, imports } = answerOf(linked);
  return [JSON.stringify({ findings, notes, faults, modules: modules.length, imports: imports.length })];
}

const FORMATS = { pretty, unix, json };

module.exports = { FORMATS };
