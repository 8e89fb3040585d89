'use strict';
// Where the rows of a tree stand in its text, as the writer writes it.

const QUOTE = 0x22;
const COMMA = 0x2c;
const OPEN = 0x5b;
const BACKSLASH = 0x5c;
const CLOSE = 0x5d;

const BEGIN = ',"rows":[';
const FEW = 1024;

// The place behind the string that begins here.
function behindString(bytes, from) {
  let at = from + 1;
  while (bytes[at] !== QUOTE) {
    at += bytes[at] === BACKSLASH ? 2 : 1;
  }
  return at + 1;
}

// The place behind the list that begins here.
function behindList(bytes, from) {
  let at = from;
  let open = 0;
  do {
    const byte = bytes[at];
    if (byte === QUOTE) {
      at = behindString(bytes, at);
      continue;
    }
    if (byte === OPEN) {
      open += 1;
    } else if (byte === CLOSE) {
      open -= 1;
    }
    at += 1;
  } while (open > 0);
  return at;
}

function grown(list) {
  const longer = new Uint32Array(2 * list.length);
  longer.set(list);
  return longer;
}

// The places of the rows between two places, of which a row stands at the first, and the place behind the last.
function placesIn(json, first, end) {
  let places = new Uint32Array(FEW);
  let count = 0;
  let at = first;
  while (at < end && json[at] === OPEN) {
    if (count + 1 === places.length) {
      places = grown(places);
    }
    places[count] = at;
    count += 1;
    at = behindList(json, at);
    at += json[at] === COMMA ? 1 : 0;
  }
  places[count] = at;
  return places.subarray(0, count + 1);
}

// The place of the first row.
const firstPlace = (json) => json.indexOf(BEGIN) + BEGIN.length;

// The places of all rows of a tree, and of the last one's end.
const placesOf = (json) => placesIn(json, firstPlace(json), json.length);

module.exports = { firstPlace, placesIn, placesOf };
