'use strict';
// Where the rows of a tree stand in its text, as the converter writes it, so that single ones are read and the whole isn't.

const { placesOf } = require('../source-to-tree/row-places.js');

const QUOTE = 0x22;
const COMMA = 0x2c;
const ZERO = 0x30;
const NINE = 0x39;

const MARKS = 6; // the field of a row
const NOTHING_MORE = '"",[]]'.length; // a row's end without text or marks

// The place of the next quote.
function quoteFrom(bytes, from) {
  let at = from;
  while (bytes[at] !== QUOTE) {
    at += 1;
  }
  return at;
}

// The place of the next comma.
function commaFrom(bytes, from) {
  let at = from;
  while (bytes[at] !== COMMA) {
    at += 1;
  }
  return at;
}

// The number that begins here.
function numberAt(bytes, from) {
  let value = 0;
  for (let at = from; bytes[at] >= ZERO && bytes[at] <= NINE; at += 1) {
    value = 10 * value + bytes[at] - ZERO;
  }
  return value;
}

// The last place in a sorted list, up to a length, whose value is at most the one asked for.
function lastAtMost(list, length, value) {
  let low = 0;
  let high = length;
  while (low + 1 < high) {
    const middle = (low + high) >>> 1;
    if (list[middle] <= value) {
      low = middle;
    } else {
      high = middle;
    }
  }
  return low;
}

class Rows {
  // The places of the rows and of the last one's end, where they are known.
  constructor(json, places = placesOf(json)) {
    this.json = json;
    this.places = places;
    this.count = places.length - 1;
    this.parents = null;
    this.sought = 0; // where the last node was found that was looked for
  }

  // The fields of a row. Neither roles nor kinds have anything that stands behind a backslash.
  at(node) {
    const { json } = this;
    const first = this.places[node];
    const end = this.places[node + 1] - (node + 1 < this.count ? 1 : 0);
    const role = quoteFrom(json, first) + 1;
    const behindRole = quoteFrom(json, role);
    const kind = behindRole + '","'.length;
    const behindKind = quoteFrom(json, kind);
    const start = behindKind + '",'.length;
    const stop = commaFrom(json, start) + 1;
    const rest = commaFrom(json, stop) + 1;
    const [text, marks] = end - rest === NOTHING_MORE ? ['', []] : JSON.parse(`[${json.toString('utf8', rest, end)}`);
    const names = [json.latin1Slice(role, behindRole), json.latin1Slice(kind, behindKind)];
    return [numberAt(json, first + 1), ...names, numberAt(json, start), numberAt(json, stop), text, marks];
  }

  // The number of each node's parent, -1 for the root's: the last node before it that is one level higher.
  parentsOf() {
    const open = [];
    const parents = new Int32Array(this.count);
    for (let node = 0; node < this.count; node += 1) {
      const depth = numberAt(this.json, this.places[node] + 1);
      open[depth] = node;
      parents[node] = depth === 0 ? -1 : open[depth - 1];
    }
    return parents;
  }

  parent(node) {
    this.parents ??= this.parentsOf();
    return this.parents[node] === -1 ? null : this.parents[node];
  }

  // The row that holds a place of the text.
  rowOver(place) {
    return lastAtMost(this.places, this.count, place);
  }

  // The nodes that have a mark. A text may have the same letters.
  marked(mark) {
    const word = `"${mark}"`;
    const nodes = [];
    for (let place = this.json.indexOf(word); place !== -1; place = this.json.indexOf(word, place + 1)) {
      const node = this.rowOver(place);
      if (place < this.places[this.count] && this.at(node)[MARKS].includes(mark) && nodes[nodes.length - 1] !== node) {
        nodes.push(node);
      }
    }
    return nodes;
  }

  // The node of a kind that begins at this byte of the source. Most are looked for in order. No string has such a text in it, since
  // its quotes would stand behind backslashes.
  nodeAt(kind, start) {
    const text = `"${kind}",${start},`;
    const behind = this.json.indexOf(text, this.sought);
    this.sought = behind === -1 ? this.json.indexOf(text) : behind;
    return this.rowOver(this.sought);
  }
}

module.exports = { Rows };
