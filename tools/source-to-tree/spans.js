'use strict';
// Parsers count UTF-16 units, the tree counts bytes of UTF-8. A byte order mark stands in the source and is not parsed.

const { Utf8 } = require('./escapes');
const { Refusal } = require('./refusal');

const MARK_BYTES = 3;
const NO_CHARACTER = Buffer.from('\ufffd'); // stands for the half of a character, too
const BLOCK_BITS = 6; // the units of a block of the text are counted together
const MOST_BLOCKS = 16; // before and behind one that are asked whether they are like it

// The bytes that a unit has above one. Half of a character of four bytes has two.
function bytesAbove(unit) {
  if (unit < 0x80) return 0;
  return unit < 0x800 || (unit >= 0xd800 && unit <= 0xdfff) ? 1 : 2;
}

// For each block of the text how many bytes more than units stand before it; the last entry is for the whole text. What is of ASCII is
// passed by its bytes, where these are those of all units.
function blocksOf(text, utf8, mayLackHalves) {
  const blocks = new Int32Array((text.length >> BLOCK_BITS) + 2);
  let byte = 0;
  for (let unit = 0; unit < text.length;) {
    if (!mayLackHalves) {
      const end = utf8.asciiEnd(byte);
      unit += end - byte;
      byte = end;
    }
    const block = unit >> BLOCK_BITS;
    for (const behind = Math.min((block + 1) << BLOCK_BITS, text.length); unit < behind; unit++) {
      const above = bytesAbove(text.charCodeAt(unit));
      blocks[block + 1] += above;
      byte += 1 + above;
    }
  }
  for (let i = 1; i < blocks.length; i++) blocks[i] += blocks[i - 1];
  return blocks;
}

// From offsets in the text, before which so many bytes stand in the source, such as a byte order mark, to bytes of the source.
class ByteOffsets {
  constructor(text, bytesBefore) {
    this.text = text;
    this.shift = bytesBefore;
    this.last = text.length;
    this.utf8 = new Utf8(text);
    const isAscii = this.utf8.length === text.length;
    this.mayLackHalves = !isAscii && this.utf8.bytes.includes(NO_CHARACTER); // the bytes, of characters
    this.blocks = isAscii ? null : blocksOf(text, this.utf8, this.mayLackHalves);
  }

  at(offset) {
    if (!(offset >= 0 && offset <= this.last)) throw new Refusal(`there is no place ${offset} in the source`);
    return this.shift + (this.blocks === null ? offset : offset + this.bytesMore(offset));
  }

  // From which unit round this one to behind which other as many bytes more than units stand before each.
  evenRound(offset) {
    const { blocks, last } = this;
    if (blocks === null) return [0, last + 1];
    const block = offset >> BLOCK_BITS;
    const more = blocks[block];
    if (blocks[block + 1] !== more) return [offset, offset + 1];
    let from = block;
    while (from > 0 && block - from < MOST_BLOCKS && blocks[from - 1] === more) from--;
    let to = block + 1;
    while (to - block < MOST_BLOCKS && to + 1 < blocks.length && blocks[to + 1] === more) to++;
    return [from << BLOCK_BITS, Math.min(to << BLOCK_BITS, last + 1)];
  }

  // How many bytes more than units stand before an offset.
  bytesMore(offset) {
    const block = offset >> BLOCK_BITS;
    let more = this.blocks[block];
    if (this.blocks[block + 1] === more) return more;
    for (let i = block << BLOCK_BITS; i < offset; i++) more += bytesAbove(this.text.charCodeAt(i));
    return more;
  }
}

module.exports = { ByteOffsets, MARK_BYTES };
