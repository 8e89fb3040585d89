'use strict';
// Writes places of the source as numbers of JSON. Most places of a tree stand near the one before: they have its thousands, and as many
// bytes more than units of the text before them. What both give is kept for all units round a place for which they are the same.

const { PADDED, THOUSAND, WORD, putNumber } = require('./bytes');

const LAST_GROUP = 4; // bytes: three digits and a comma

class NearPlaces {
  constructor(offsets) {
    this.offsets = offsets;
    this.low = 0; // the first of these units
    this.count = 0;
    this.more = 0; // what is added to a unit's offset for its byte
    this.first = 0; // what the first one's place has above thousands
    this.bytes = Buffer.alloc(WORD); // the digits of their thousands
    this.word = new DataView(this.bytes.buffer, this.bytes.byteOffset, WORD); // the same
    this.digits = 0; // how many
  }

  // Makes them those round an offset.
  moveTo(offset) {
    const { offsets } = this;
    const place = offsets.at(offset);
    const thousands = Math.floor(place / THOUSAND);
    this.more = place - offset;
    const [from, to] = offsets.evenRound(offset);
    this.low = Math.max(from, thousands * THOUSAND - this.more);
    this.count = Math.min(to, (thousands + 1) * THOUSAND - this.more) - this.low;
    this.first = this.low + this.more - thousands * THOUSAND;
    this.digits = thousands === 0 ? 0 : this.bytes.latin1Write(String(thousands));
  }

  has(offset) {
    const from = offset - this.low;
    return from >= 0 && from < this.count;
  }

  // Writes the place of an offset that is among them, and a comma, and gives the place behind.
  put(view, at, offset) {
    const rest = offset - this.low + this.first;
    if (this.digits === 0) return putNumber(view, at, rest);
    view.setFloat64(at, this.word.getFloat64(0, true), true);
    view.setInt32(at + this.digits, PADDED[rest], true);
    return at + this.digits + LAST_GROUP;
  }
}

module.exports = { NearPlaces };
