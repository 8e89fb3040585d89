'use strict';
// From the answers of the programs on a file to its findings.

const { askedOf, isIgnored } = require('./comments.js');
const { earlyErrors, redeclarations, unusedLabels } = require('./diagnostics.js');
const { SYNTAX, isOn } = require('./rules.js');
const { undeclared } = require('./undeclared.js');
const { unused } = require('./unused.js');

// What tells the findings of a rule in one file.
const TELLERS = {
  'no-unused': (answers, rule, asked) => unused(answers, rule, asked.exported),
  'no-undeclared': (answers, rule, asked, known) => undeclared(answers, known),
  'no-redeclare': redeclarations,
  'early-error': earlyErrors,
  'unused-label': unusedLabels,
};

// A span with lines and columns of both its ends.
function placed(positions, { start, end }) {
  const from = positions.placeOf(start);
  const to = positions.placeOf(end);
  return { line: from.line, column: from.column, endLine: to.line, endColumn: to.column, span: { start, end } };
}

function finding(positions, rule, severity, { span, message, related = [], ...remarks }) {
  const others = related.map((other) => ({ message: other.message, ...placed(positions, other.span) }));
  return { rule, severity, message, ...placed(positions, span), related: others, ...remarks };
}

// Environments and names that settings and comments make known.
function knownNames(settings, asked) {
  const env = settings.env === null && asked.env === null ? null : [...(settings.env ?? []), ...(asked.env ?? [])];
  return { env, globals: new Map([...Object.entries(settings.globals), ...asked.globals]) };
}

function compare(left, right) {
  return left.span.start - right.span.start || left.span.end - right.span.end;
}

// The findings of a file, in order of their places.
function findingsOf(answers, settings) {
  const asked = askedOf(answers);
  const known = knownNames(settings, asked);
  const found = Object.keys(TELLERS).filter((name) => isOn(settings.rules[name])).flatMap((name) => {
    const rule = settings.rules[name];
    return [...TELLERS[name](answers, rule, asked, known)].map((told) => finding(answers.positions, name, rule.severity, told));
  });
  return found.filter((told) => !isIgnored(asked.ignored, told)).sort(compare);
}

// The finding of a text that no parser reads, of whose place `start` isn't always known.
function syntaxFinding({ message, line, column, start }) {
  const span = start === undefined ? null : { start, end: start };
  return { rule: SYNTAX, severity: 'error', message, line, column, endLine: line, endColumn: column, span, related: [] };
}

module.exports = { findingsOf, syntaxFinding };
