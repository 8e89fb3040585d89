'use strict';
// A client of the server, whose frames are written by hand.

const path = require('path');
const { spawn } = require('child_process');

const COMMAND = path.join(__dirname, '..', '..', 'bin', 'bolgwyr');

// The bytes of a frame.
function frame(content) {
  const text = typeof content === 'string' ? content : JSON.stringify({ jsonrpc: '2.0', ...content });
  return Buffer.from(`Content-Length: ${Buffer.byteLength(text)}\r\n\r\n${text}`);
}

// Takes whole frames off the bytes, and gives what is left.
function takeFrames(bytes, take) {
  let rest = bytes;
  for (;;) {
    const header = /^Content-Length: (\d+)\r\n\r\n/.exec(rest.toString('latin1', 0, 60));
    const end = header === null ? Infinity : header[0].length + Number(header[1]);
    if (header === null && rest.length >= 60) {
      throw new Error(`standard output has more than frames: ${JSON.stringify(rest.toString('utf8', 0, 60))}`);
    }
    if (rest.length < end) {
      return rest;
    }
    take(JSON.parse(rest.toString('utf8', header[0].length, end)));
    rest = rest.subarray(end);
  }
}

class Client {
  constructor(words = ['--stdio'], { cwd, stderr = 'inherit' } = {}) {
    this.child = spawn(COMMAND, ['lsp', ...words], { cwd, stdio: ['pipe', 'pipe', stderr] });
    this.child.stdin.on('error', () => {});
    this.messages = [];
    this.listeners = [];
    this.next = 0;
    let rest = Buffer.alloc(0);
    this.child.stdout.on('data', (chunk) => {
      rest = takeFrames(Buffer.concat([rest, chunk]), (message) => this.hear(message));
    });
    this.ended = new Promise((resolve) => {
      this.child.on('close', (status) => resolve(rest.length === 0 ? status : `status ${status}, and ${rest.length} bytes behind the frames`));
    });
  }

  hear(message) {
    this.messages.push(message);
    this.listeners.forEach((listen) => listen());
  }

  // The first message that fits, which may come later.
  wait(fits) {
    return new Promise((resolve) => {
      const listen = () => {
        const found = this.messages.find(fits);
        if (found !== undefined) {
          this.listeners = this.listeners.filter((other) => other !== listen);
          resolve(found);
        }
      };
      this.listeners.push(listen);
      listen();
    });
  }

  write(bytes) {
    this.child.stdin.write(bytes);
  }

  // Sends what `make` sends in one piece.
  together(make) {
    this.child.stdin.cork();
    make();
    this.child.stdin.uncork();
  }

  notify(method, params) {
    this.write(frame({ method, params }));
  }

  // The number of a request that is sent.
  ask(method, params) {
    this.next += 1;
    this.write(frame({ id: this.next, method, params }));
    return this.next;
  }

  answerTo(id) {
    return this.wait((message) => message.id === id && message.method === undefined);
  }

  request(method, params) {
    return this.answerTo(this.ask(method, params));
  }

  open(uri, text, { languageId = 'javascript', version = 1 } = {}) {
    this.notify('textDocument/didOpen', { textDocument: { uri, languageId, version, text } });
  }

  diagnosticsOf(uri, version) {
    return this.wait(({ method, params }) => method === 'textDocument/publishDiagnostics' && params.uri === uri && params.version === version);
  }

  async end() {
    await this.request('shutdown');
    this.notify('exit');
    return this.ended;
  }
}

module.exports = { Client, frame };
