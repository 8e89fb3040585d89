'use strict';
// The source of a page: lines in the boxes of their scopes.

const { layOut } = require('./boxes.js');
const { eventsOf } = require('./events.js');
const { LineWriter } = require('./line-writer.js');

// Lines are kept together in pieces, and a browser lays out only those that are seen.
const PIECE = 40;

// How many edges of boxes that begin at one column stand side by side.
const MOST_EDGES = 5;

// How wide a tab is, in letters, as page.css says too.
const TAB = 4;

function writeLines(writer, first, last, out) {
  for (let start = first; start <= last; start += PIECE) {
    const end = Math.min(last, start + PIECE - 1);
    out.push(`<div class="lines" style="--lines:${end - start + 1}">`);
    for (let number = start; number <= end; number += 1) {
      out.push(writer.line(number));
    }
    out.push('</div>');
  }
}

function openBox(box, prefix) {
  const { id, kind, span, lastLine } = box.scope;
  const label = `scope ${id}: ${kind}, lines ${span.line} to ${lastLine}`;
  const edge = `--indent:${box.indent};--rank:${Math.min(box.rank, MOST_EDGES)}`;
  return `<div class="scope" id="${prefix}scope-${id}" style="${edge}" role="group" aria-label="${label}">`;
}

// A box is its lines and the boxes inside it, in order.
function writeBox(box, writer, prefix, out) {
  out.push(openBox(box, prefix));
  let line = box.first;
  for (const inner of box.inside) {
    writeLines(writer, line, inner.first - 1, out);
    writeBox(inner, writer, prefix, out);
    line = inner.last + 1;
  }
  writeLines(writer, line, box.last, out);
  out.push('</div>');
}

// Characters that are wider than a letter: tabs, and those of East Asia.
const TABS = /\t/g;
const WIDE = /[\u1100-\uffff]/g;

function count(text, pattern) {
  const found = text.match(pattern);
  return found === null ? 0 : found.length;
}

// How wide the longest line is, in letters. A browser can't know the width of lines that it doesn't lay out.
function widthOf(positions) {
  let width = 0;
  for (let line = 0; line < positions.lines; line += 1) {
    const text = positions.text.slice(positions.lineStarts[line], positions.lineEnd(line));
    width = Math.max(width, text.length + (TAB - 1) * count(text, TABS) + count(text, WIDE));
  }
  return width;
}

// How far a line, from 1, is indented, in letters.
function indentOf(positions, line) {
  const start = positions.lineStarts[line - 1];
  const space = /[ \t]*/y;
  space.lastIndex = start;
  const found = space.exec(positions.text)[0];
  return found.length + (TAB - 1) * count(found, TABS);
}

function lineNumbers(count) {
  return Array.from({ length: count }, (_, place) => place + 1).join('\n');
}

function sourceHtml(model) {
  const { root, inline } = layOut(model.scopes, (line) => indentOf(model.positions, line));
  const writer = new LineWriter(model.positions, eventsOf(model, inline));
  const out = [];
  writeBox(root, writer, model.prefix, out);
  const width = widthOf(model.positions);
  return `<div class="numbers" aria-hidden="true">${lineNumbers(model.positions.lines)}</div>
<div class="source" style="--width:${width}">${out.join('')}</div>`;
}

module.exports = { sourceHtml };
