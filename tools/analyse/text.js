'use strict';
// The report for people: diagnostics and unused labels, each with its line of source.

const { excerpt } = require('./excerpt.js');
const { printable } = require('./refusal.js');
const { visible } = require('./visible.js');

function placed(analysis, span) {
  const place = analysis.positions.placeOf(span.start);
  return `${printable(analysis.file)}:${place.line}:${place.column}`;
}

// What a diagnostic adds below its places.
function remarks(diagnostic) {
  const lines = [];
  if (diagnostic.help !== null) {
    lines.push(`  help: ${visible(diagnostic.help)}`);
  }
  if (diagnostic.note !== null) {
    lines.push(`  note: ${visible(diagnostic.note)}`);
  }
  return lines;
}

// A diagnostic: its first place leads, the others are related.
function diagnosticLines(analysis, diagnostic) {
  const code = diagnostic.code === null ? '' : `${diagnostic.code}: `;
  const message = `${code}${visible(diagnostic.message)}`;
  const [first, ...related] = diagnostic.labels;
  if (first === undefined) {
    return [`${printable(analysis.file)}: ${message}`, ...remarks(diagnostic)];
  }
  const lines = [`${placed(analysis, first.span)}: ${message}`];
  lines.push(...excerpt(analysis.positions, first.span, first.text));
  for (const label of related) {
    lines.push(`  related: ${placed(analysis, label.span)}`);
    lines.push(...excerpt(analysis.positions, label.span, label.text));
  }
  return [...lines, ...remarks(diagnostic)];
}

// The span of a labelled statement's label: the node behind it is the label's identifier.
function labelSpan(analysis, node) {
  return analysis.spanOf(node + 1);
}

function unusedLabelLines(analysis, label) {
  const span = labelSpan(analysis, label.node);
  const name = analysis.positions.textOf(span);
  return [
    `${placed(analysis, span)}: unused label \`${visible(name)}\``,
    ...excerpt(analysis.positions, span, null),
  ];
}

// All lines on a file. A file without findings has none.
function textLines(analysis) {
  return [
    ...analysis.report.diagnostics.flatMap((diagnostic) => diagnosticLines(analysis, diagnostic)),
    ...analysis.report.unusedLabels.flatMap((label) => unusedLabelLines(analysis, label)),
  ];
}

module.exports = { labelSpan, textLines };
