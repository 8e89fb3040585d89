'use strict';
// For people: each finding with its line of source, and a sum at the end.

const { excerpt } = require('../../analyse/excerpt.js');
const { Positions } = require('../../analyse/positions.js');
const { printable } = require('../../analyse/refusal.js');
const { visible } = require('../../analyse/visible.js');
const { paints } = require('../../bolgwyr/colour.js');
const { sumLine, sumOf } = require('./sum.js');

// A line of source, and a line with carets below it.
function shown(paint, positions, span, said, mark) {
  const [source, carets] = excerpt(positions, span, said ?? null);
  return [paint.quiet(source), mark(carets)];
}

const placeOf = (file, { line, column }) => `${printable(file)}:${line}:${column}`;

function remarks({ help, note }) {
  return [['help', help], ['note', note]].filter(([, text]) => text !== undefined).map(([what, text]) => `  ${what}: ${visible(text)}`);
}

// A place that belongs to a finding, in this file or in another. Of one that has no lines only the place is known.
function relatedLines(paint, { file, others }, positions, related) {
  const place = `  related: ${paint.place(placeOf(related.file ?? file, related))}`;
  const around = related.file === undefined ? positions : others.get(related.file);
  if (around === undefined) {
    return [`${place}: ${visible(related.message)}`];
  }
  return [place, ...shown(paint, around, related.span, related.message, paint.quiet)];
}

function findingLines(paint, result, positions, finding) {
  const mark = finding.severity === 'error' ? paint.error : paint.warning;
  const lines = [`${paint.place(placeOf(result.file, finding))}: ${visible(finding.message)}  ${mark(finding.rule)}`];
  if (finding.span !== null) {
    lines.push(...shown(paint, positions, finding.span, finding.said, mark));
  }
  const others = finding.related.flatMap((related) => relatedLines(paint, result, positions, related));
  return [...lines, ...others, ...remarks(finding)];
}

function resultLines(paint, result) {
  const { text, findings } = result;
  if (findings.length === 0) {
    return [];
  }
  const positions = new Positions(text);
  return findings.flatMap((finding) => findingLines(paint, result, positions, finding));
}

function format(results, { colour }) {
  const paint = paints(colour);
  const sum = sumOf(results);
  const mark = sum.errors > 0 ? paint.error : sum.warnings + sum.failed > 0 ? paint.warning : paint.good;
  const lines = [...results.flatMap((result) => resultLines(paint, result)), mark(sumLine(sum))];
  return lines.map((line) => `${line}\n`).join('');
}

module.exports = { format };
