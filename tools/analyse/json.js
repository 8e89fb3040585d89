'use strict';
// The report as one object for other programs. docs/tables.md describes it.

const { labelSpan } = require('./text.js');

// A span in bytes, with line and column of its start.
function spanObject(analysis, span) {
  return { ...span, ...analysis.positions.placeOf(span.start) };
}

function nodeSpan(analysis, node) {
  return spanObject(analysis, analysis.spanOf(node));
}

function scopeObject(analysis, scope) {
  const kind = analysis.kindOf(scope.node);
  return { ...scope, kind, span: nodeSpan(analysis, scope.node) };
}

function symbolObject(analysis, symbol) {
  const redeclarations = symbol.redeclarations.map((entry) => ({ ...entry, span: spanObject(analysis, entry.span) }));
  return { ...symbol, span: spanObject(analysis, symbol.span), redeclarations };
}

function diagnosticObject(analysis, diagnostic) {
  const labels = diagnostic.labels.map((label) => ({ ...label, span: spanObject(analysis, label.span) }));
  return { ...diagnostic, labels };
}

function unusedLabelObject(analysis, label) {
  const span = labelSpan(analysis, label.node);
  return { node: label.node, name: analysis.positions.textOf(span), span: spanObject(analysis, span) };
}

function elementObject(analysis, element) {
  return { ...element, span: spanObject(analysis, element.span) };
}

function classObject(analysis, entry) {
  const elements = entry.elements.map((element) => elementObject(analysis, element));
  const uses = entry.uses.map((use) => elementObject(analysis, use));
  return { ...entry, elements, uses };
}

// What only a word of the report brings is there only with that word.
function askedFor(analysis) {
  const { report, words } = analysis;
  return {
    ...(words.includes('--nodes') && { nodes: report.nodes }),
    ...(words.includes('--classes') && { classes: report.classes.map((entry) => classObject(analysis, entry)) }),
    ...(words.includes('--stats') && { stats: report.stats }),
  };
}

function jsonObject(analysis) {
  const { report } = analysis;
  return {
    file: analysis.file,
    goal: analysis.goal,
    lang: analysis.lang,
    scopes: report.scopes.map((scope) => scopeObject(analysis, scope)),
    symbols: report.symbols.map((symbol) => symbolObject(analysis, symbol)),
    references: report.references.map((entry) => ({ ...entry, span: nodeSpan(analysis, entry.node) })),
    free: report.free,
    unusedLabels: report.unusedLabels.map((label) => unusedLabelObject(analysis, label)),
    diagnostics: report.diagnostics.map((diagnostic) => diagnosticObject(analysis, diagnostic)),
    ...askedFor(analysis),
  };
}

// The object of a file that was refused.
function refusalObject(file, refusal) {
  const place = refusal.line === undefined ? {} : { line: refusal.line, column: refusal.column };
  return { file, refused: { message: refusal.message, ...place } };
}

module.exports = { jsonObject, refusalObject };
