'use strict';
// Frames: a header with the length of the content in bytes, an empty line, and the content.

const HEADER_END = '\r\n\r\n';
const MOST_HEADER = 4096;
const MOST_CONTENT = 268_435_456;
const LENGTH = /^content-length:[ \t]*(\d{1,9})[ \t]*$/im;

class FrameReader {
  // `take` gets the content of each frame, and `refuse` what is wrong with one; `isLost` where no next one can be found.
  constructor({ take, refuse }) {
    this.take = take;
    this.refuse = refuse;
    this.chunks = [];
    this.size = 0;
    this.wanted = null; // bytes of the content at hand, null in a header
    this.isLost = false;
  }

  // The bytes at hand as one buffer. Chunks are joined once a content is whole, so that each is copied once.
  joined() {
    if (this.chunks.length !== 1) {
      this.chunks = [Buffer.concat(this.chunks)];
    }
    return this.chunks[0];
  }

  push(chunk) {
    this.chunks.push(chunk);
    this.size += chunk.length;
    while (!this.isLost && this.size > 0 && this.step()) {
      // each step takes a header or a content
    }
  }

  step() {
    return this.wanted === null ? this.takeHeader() : this.takeContent();
  }

  keep(rest) {
    this.chunks = [rest];
    this.size = rest.length;
  }

  lose(cause) {
    this.isLost = true;
    this.refuse(cause, true);
    return false;
  }

  takeHeader() {
    const bytes = this.joined();
    const end = bytes.subarray(0, MOST_HEADER).indexOf(HEADER_END);
    if (end === -1) {
      return bytes.length < MOST_HEADER ? false : this.lose(`no header of a frame in ${MOST_HEADER} bytes`);
    }
    const found = LENGTH.exec(bytes.toString('latin1', 0, end));
    this.keep(bytes.subarray(end + HEADER_END.length));
    if (found === null) {
      this.refuse('a header without Content-Length', false);
      return true;
    }
    const wanted = Number(found[1]);
    if (wanted > MOST_CONTENT) {
      return this.lose(`a frame of ${wanted} bytes, where ${MOST_CONTENT} are taken`);
    }
    this.wanted = wanted;
    return true;
  }

  takeContent() {
    if (this.size < this.wanted) {
      return false;
    }
    const bytes = this.joined();
    const content = bytes.toString('utf8', 0, this.wanted);
    this.keep(bytes.subarray(this.wanted));
    this.wanted = null;
    this.take(content);
    return true;
  }
}

// A value that is JSON already.
class JsonText {
  constructor(text) {
    this.text = text;
  }
}

const isObject = (value) => value !== null && typeof value === 'object' && !Array.isArray(value);

// The JSON of a value, of which parts of objects may be JSON already.
function jsonOf(value) {
  if (value instanceof JsonText) {
    return value.text;
  }
  if (!isObject(value)) {
    return JSON.stringify(value);
  }
  const parts = Object.entries(value).filter(([, part]) => part !== undefined);
  return `{${parts.map(([name, part]) => `${JSON.stringify(name)}:${jsonOf(part)}`).join(',')}}`;
}

// The bytes of a message's frame.
function frameOf(message) {
  const content = Buffer.from(jsonOf(message), 'utf8');
  return Buffer.concat([Buffer.from(`Content-Length: ${content.length}\r\n\r\n`, 'latin1'), content]);
}

module.exports = { FrameReader, JsonText, frameOf };
