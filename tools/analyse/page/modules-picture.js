'use strict';
// The graph of modules as a picture: modules in columns, each right of those that import from it, and a line for each pair.

const { escape } = require('./html.js');

const LETTER = 7.3; // how wide one is
const BOX = { height: 26, padding: 10 };
const SAG = 40; // how much lower a line hangs for each column that it passes
const GAP = { across: 110, down: 16, edge: 12 };

// How many names a line tells, and how long a label may be; all of them stand in its title.
const MOST_NAMES = 3;
const LONGEST = 24;

const widthOf = ({ name }) => Math.ceil(name.length * LETTER) + 2 * BOX.padding;

// The nodes in an order in which each stands before those that it imports from, but where imports go in a ring.
function inOrder({ nodes, edges }) {
  const targets = new Map(nodes.map(({ name }) => [name, []]));
  edges.forEach(({ from, to }) => targets.get(from).push(to));
  const seen = new Set();
  const behind = [];
  const visit = (name) => {
    if (!seen.has(name)) {
      seen.add(name);
      targets.get(name).forEach(visit);
      behind.push(name);
    }
  };
  nodes.filter(({ isEntry }) => isEntry).forEach(({ name }) => visit(name));
  nodes.forEach(({ name }) => visit(name));
  return behind.reverse();
}

// The column of each node: right of all that import from it, but for rings.
function columnNumbers(graph) {
  const order = inOrder(graph);
  const places = new Map(order.map((name, place) => [name, place]));
  const numbers = new Map(order.map((name) => [name, 0]));
  const forward = graph.edges.filter(({ from, to }) => places.get(from) < places.get(to));
  forward.sort((left, right) => places.get(left.from) - places.get(right.from));
  forward.forEach(({ from, to }) => numbers.set(to, Math.max(numbers.get(to), numbers.get(from) + 1)));
  return numbers;
}

function columnsOf(graph) {
  const numbers = columnNumbers(graph);
  const columns = [];
  for (const node of graph.nodes) {
    const column = numbers.get(node.name);
    columns[column] = [...(columns[column] ?? []), node];
  }
  return columns.filter((column) => column !== undefined);
}

// Where each node stands, by its name, and how large the picture is.
function layOut(columns) {
  const places = new Map();
  let left = GAP.edge;
  let height = 0;
  columns.forEach((column, number) => {
    const width = Math.max(...column.map(widthOf));
    column.forEach((node, row) => {
      const top = GAP.edge + row * (BOX.height + GAP.down);
      places.set(node.name, { column: number, left, top, width: widthOf(node), middle: top + BOX.height / 2 });
      height = Math.max(height, top + BOX.height + GAP.edge);
    });
    left += width + GAP.across;
  });
  return { places, width: left - GAP.across + GAP.edge + GAP.across / 2, height };
}

// From the right side of one box to the left side of the other. Past other columns the line hangs, and backwards it bends outward.
function curve(from, to) {
  const [x1, y1, x2, y2] = [from.left + from.width, from.middle, to.left, to.middle];
  const passed = to.column - from.column - 1;
  if (passed > 0) {
    const low = Math.max(y1, y2) + SAG * passed;
    return { path: `M${x1} ${y1}C${x1 + SAG} ${low} ${x2 - SAG} ${low} ${x2} ${y2}`, x: (x1 + x2) / 2, y: (y1 + 6 * low + y2) / 8 };
  }
  if (passed === 0) {
    const bend = (x2 - x1) / 2;
    return { path: `M${x1} ${y1}C${x1 + bend} ${y1} ${x2 - bend} ${y2} ${x2} ${y2}`, x: (x1 + x2) / 2, y: (y1 + y2) / 2 };
  }
  const out = Math.max(x1, to.left + to.width) + GAP.across / 3;
  return { path: `M${x1} ${y1}C${out} ${y1} ${out} ${y2} ${to.left + to.width} ${y2}`, x: out - GAP.across / 12, y: (y1 + y2) / 2 };
}

function labelOf(names) {
  const more = names.length > MOST_NAMES ? ` +${names.length - MOST_NAMES}` : '';
  const text = names.slice(0, MOST_NAMES).join(', ') + more;
  return text.length > LONGEST ? `${text.slice(0, LONGEST - 1)}…` : text;
}

function edgeSvg({ from, to, names, isExternal }, { path, x, y }) {
  const title = `${from} imports ${names.length === 0 ? 'nothing by name' : names.join(', ')} from ${to}`;
  return `<g class="edge${isExternal ? ' external' : ''}"><title>${escape(title)}</title><path d="${path}" marker-end="url(#arrow)"/>`
    + `<text x="${x}" y="${y - 3}">${escape(labelOf(names))}</text></g>`;
}

function nodeSvg(node, { left, top, width, middle }) {
  const look = `module${node.isExternal ? ' external' : ''}${node.isEntry ? ' entry' : ''}${node.file === null ? '' : ' here'}`;
  const box = `<g class="${look}"><title>${escape(node.name)}${node.isExternal ? ': nothing is known of it' : ''}</title>`
    + `<rect x="${left}" y="${top}" width="${width}" height="${BOX.height}" rx="4"/>`
    + `<text x="${left + BOX.padding}" y="${middle + 4}">${escape(node.name)}</text></g>`;
  return node.file === null ? box : `<a href="#file-${node.file}">${box}</a>`;
}

const ARROW = '<defs><marker id="arrow" viewBox="0 0 8 8" refX="7" refY="4" markerWidth="8" markerHeight="8" orient="auto"><path d="M0 0L8 4L0 8z"/></marker></defs>';

// `nodes`: {name, isExternal, isEntry, file}, where `file` is the number of a file of the page, or null; `edges` as the graph of
// bolgwyr link has them.
function modulesPicture(graph) {
  const { places, width, height: least } = layOut(columnsOf(graph));
  const curves = graph.edges.map(({ from, to }) => curve(places.get(from), places.get(to)));
  const height = Math.max(least, ...curves.map(({ y }) => y + GAP.edge));
  const edges = graph.edges.map((edge, at) => edgeSvg(edge, curves[at]));
  const nodes = graph.nodes.map((node) => nodeSvg(node, places.get(node.name)));
  return `<svg class="modules" role="img" aria-label="Which modules import from which" width="${width}" height="${height}" viewBox="0 0 ${width} ${height}">`
    + `${ARROW}${edges.join('')}${nodes.join('')}</svg>`;
}

module.exports = { modulesPicture };
