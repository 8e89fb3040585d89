'use strict';
// The scopes of a file as a picture: boxes in boxes, each of which can be closed.

const { prefixOf } = require('../ids.js');
const { counted } = require('./elements.js');
const { files, scopeOf } = require('./tables.js');

const SVG = 'http://www.w3.org/2000/svg';
const LETTER = 7.3;
const ROW = 18;
const PAD = 8;
const GAP = 6;
const WIDEST = 92; // letters of a line of names

// How many scopes are open at first: so many levels as have not more of them.
const OPEN_AT_FIRST = 200;

const closed = new Map(); // by file: the scopes that are closed

function childrenOf(file) {
  const children = files[file].scopes.map(() => []);
  files[file].scopes.forEach(([parent], id) => parent !== null && children[parent].push(id));
  return children;
}

function namesOf(file) {
  const names = files[file].scopes.map(() => []);
  files[file].symbols.forEach(([name, , scope]) => names[scope].push(name));
  return names;
}

function depthsOf(file) {
  const depths = [];
  files[file].scopes.forEach(([parent]) => depths.push(parent === null ? 0 : depths[parent] + 1));
  return depths;
}

// Closes the levels that would make the picture large.
function closedAtFirst(file) {
  const depths = depthsOf(file);
  const counts = [];
  depths.forEach((depth) => { counts[depth] = (counts[depth] || 0) + 1; });
  let sum = 0;
  const deepest = counts.findIndex((count) => (sum += count) > OPEN_AT_FIRST);
  return new Set(deepest < 0 ? [] : depths.flatMap((depth, id) => (depth >= Math.max(1, deepest - 1) ? [id] : [])));
}

// Names in lines that are not too long.
function linesOf(names) {
  const lines = [];
  for (const name of names) {
    const last = lines.length - 1;
    if (last >= 0 && lines[last].length + name.length < WIDEST) {
      lines[last] += ` ${name}`;
    } else {
      lines.push(name);
    }
  }
  return lines;
}

// A box with its lines and the boxes inside it, from the top of the box that it stands in.
function layOut(file, id, known) {
  const { kind, line, lastLine } = scopeOf(file, id);
  const inside = known.children[id];
  const isClosed = known.closed.has(id);
  const hidden = isClosed && inside.length > 0 ? ` … ${counted(inside.length, 'scope')} inside` : '';
  const sign = inside.length === 0 ? ' ' : isClosed ? '▸' : '▾';
  const extent = line === lastLine ? line : `${line}–${lastLine}`;
  const title = `${sign} ${kind} ${extent}${hidden}`;
  const lines = isClosed ? [] : linesOf(known.names[id]);
  const boxes = isClosed ? [] : inside.map((inner) => layOut(file, inner, known));
  let top = PAD + ROW * (1 + lines.length);
  for (const box of boxes) {
    box.top = top;
    top += box.height + GAP;
  }
  const letters = Math.max(title.length, ...lines.map((text) => text.length));
  const width = Math.max(letters * LETTER + 2 * PAD, ...boxes.map((box) => box.width + 2 * PAD));
  return { id, title, lines, boxes, isClosed, canClose: inside.length > 0, width, height: top + PAD, top: 0 };
}

function svg(name, attributes, text) {
  const made = document.createElementNS(SVG, name);
  Object.entries(attributes).forEach(([key, value]) => made.setAttribute(key, value));
  if (text !== undefined) {
    made.textContent = text;
  }
  return made;
}

function headOf({ id, title, isClosed, canClose, width }) {
  const state = canClose ? { role: 'button', tabindex: 0, 'aria-expanded': String(!isClosed) } : {};
  const head = svg('g', { class: 'head', 'data-scope': id, ...state });
  head.append(svg('rect', { x: 0, y: 0, width, height: ROW + PAD / 2, class: 'bar' }), svg('text', { x: PAD, y: ROW - 2 }, title));
  return head;
}

function draw(file, box, left, width) {
  const group = svg('g', { transform: `translate(${left} ${box.top})` });
  group.append(svg('rect', { class: 'scope-box', width, height: box.height, rx: 4 }), headOf({ ...box, width }));
  box.lines.forEach((line, row) => group.append(svg('text', { class: 'names', x: PAD, y: ROW * (row + 2) }, line)));
  const source = svg('a', { href: `#${prefixOf(file)}scope-${box.id}`, class: 'to-source' });
  source.append(svg('text', { x: width - PAD, y: ROW - 2, 'text-anchor': 'end' }, 'source'));
  group.append(source);
  box.boxes.forEach((inner) => group.append(draw(file, inner, PAD, width - 2 * PAD)));
  return group;
}

// Room for the word at the right of each box.
const SOURCE_WIDTH = 70;

function showScopes(file, holder) {
  if (!closed.has(file)) {
    closed.set(file, closedAtFirst(file));
  }
  const known = { children: childrenOf(file), names: namesOf(file), closed: closed.get(file) };
  const box = layOut(file, 0, known);
  const width = box.width + SOURCE_WIDTH;
  const picture = svg('svg', { class: 'scopes', width: width + 2 * GAP, height: box.height + 2 * GAP, role: 'group', 'aria-label': `Scopes of ${files[file].name}` });
  picture.append(draw(file, { ...box, top: GAP }, GAP, width));
  holder.dataset.file = file;
  holder.replaceChildren(picture);
}

// Opens or closes the box whose head this is; the head keeps the focus.
function toggle(head) {
  const holder = head.closest('.picture');
  const file = Number(holder.dataset.file);
  const id = Number(head.dataset.scope);
  const own = closed.get(file);
  if (!own.delete(id)) {
    own.add(id);
  }
  showScopes(file, holder);
  holder.querySelector(`[data-scope="${id}"]`).focus();
}

module.exports = { showScopes, toggle };
