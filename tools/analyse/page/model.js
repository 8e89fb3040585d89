'use strict';
// What a page shows of a file, with places in the string in the place of bytes.

const { prefixOf } = require('./ids.js');
const { scopeKind } = require('./names.js');

// A span with places in the string, and line and column of its start.
function placed(positions, span) {
  return { start: positions.indexOf(span.start), end: positions.indexOf(span.end), ...positions.placeOf(span.start) };
}

// All declarations of a symbol, its own first. An entry that repeats a span is the same declaration.
function declarationsOf(positions, symbol) {
  const spans = new Map([[symbol.span.start, symbol.span]]);
  for (const entry of symbol.redeclarations) {
    if (!spans.has(entry.span.start)) {
      spans.set(entry.span.start, entry.span);
    }
  }
  return [...spans.values()].map((span) => placed(positions, span));
}

function scopeModel(analysis, scope) {
  const span = placed(analysis.positions, analysis.spanOf(scope.node));
  const last = analysis.positions.lineOf(Math.max(span.start, span.end - 1)) + 1;
  return { ...scope, span, lastLine: last, kind: scopeKind(analysis.kindOf(scope.node)) };
}

// The root's scope holds the whole file, also what stands before and behind the program's span.
function scopeModels(analysis) {
  const scopes = analysis.report.scopes.map((scope) => scopeModel(analysis, scope));
  const whole = { start: 0, end: analysis.positions.text.length, line: 1, column: 1 };
  Object.assign(scopes[0], { span: whole, lastLine: analysis.positions.lines });
  return scopes;
}

// A finding and what belongs to it, each with its place; what stands in another file has that file's name.
function findingModel(positions, { rule, severity, message, said = null, help = null, note = null, related, ...place }) {
  const others = related.map((other) => ({
    text: other.message,
    file: other.file ?? null,
    line: other.line,
    column: other.column,
    span: other.file === undefined ? placed(positions, other.span) : null,
  }));
  return { rule, severity, message, help, note, places: [{ text: said, file: null, span: placed(positions, place.span) }, ...others] };
}

// The names that nothing in use uses are no places of their own: the names are marked.
function modelOf({ analysis, tree, unused, findings, number = 0 }) {
  const { report, positions } = analysis;
  return {
    number,
    prefix: prefixOf(number),
    file: analysis.file,
    goal: analysis.goal,
    lang: analysis.lang,
    positions,
    tables: { filename: analysis.file, source: positions.text, tree, report },
    scopes: scopeModels(analysis),
    symbols: report.symbols.map((symbol) => ({ ...symbol, declarations: declarationsOf(positions, symbol), isUnused: unused.has(symbol.id) })),
    references: report.references.map((entry) => ({ ...entry, span: placed(positions, analysis.spanOf(entry.node)) })),
    free: report.free,
    findings: findings.map((finding) => findingModel(positions, finding)),
    comments: analysis.comments.map(([start, end]) => placed(positions, { start, end })),
    specifiers: [],
    defaultExport: null,
    imports: [],
  };
}

module.exports = { modelOf, placed };
