'use strict';
// What is sent to a server and what comes back, where no text is analysed: frames and messages that are wrong, and how it ends.

const { frame } = require('./client.js');

const initialize = { id: 1, method: 'initialize', params: { capabilities: {} } };
const shutdown = { id: 2, method: 'shutdown' };
const exit = { method: 'exit' };
const open = { method: 'textDocument/didOpen', params: { textDocument: { uri: 'file:///nowhere/a.js', languageId: 'javascript', version: 1, text: '' } } };
const hover = (id, params) => ({ id, method: 'textDocument/hover', params });
const textDocument = { uri: 'file:///nowhere/a.js' };
const start = { line: 0, character: 0 };

const INITIALIZED = [1, 'capabilities'];
const ENDED = [2, null];

const bytes = (text) => Buffer.from(text);
const content = JSON.stringify({ jsonrpc: '2.0', ...initialize });
const length = Buffer.byteLength(content);

// A case: `name`, what is `sent` (messages, texts of frames, or bytes), what `comes`: the id with the error's number, null for a result
// of null, or one key of the result; and the `status`. Without `exit` the input ends.
const CONVERSATIONS = [
  { name: 'initialize, shutdown and exit', sent: [initialize, shutdown, exit], comes: [INITIALIZED, ENDED], status: 0 },
  { name: 'exit without shutdown', sent: [initialize, exit], comes: [INITIALIZED], status: 1 },
  { name: 'exit before initialize', sent: [exit], comes: [], status: 1 },
  { name: 'an end of the input', sent: [initialize], comes: [INITIALIZED], status: 1 },
  { name: 'an end of the input after shutdown', sent: [initialize, shutdown], comes: [INITIALIZED, ENDED], status: 0 },
  { name: 'no input', sent: [], comes: [], status: 1 },
  { name: 'half a frame', sent: [bytes('Content-Length: 10\r\n\r\n{')], comes: [], status: 1 },
  {
    name: 'a header without a length', sent: [bytes('Content-Type: text\r\n\r\n'), initialize, shutdown, exit],
    comes: [[null, -32700], INITIALIZED, ENDED], status: 0,
  },
  { name: 'no header at all', sent: [bytes('x'.repeat(5000)), initialize], comes: [[null, -32700]], status: 1 },
  { name: 'a length beyond all bounds', sent: [bytes('Content-Length: 999999999\r\n\r\n'), initialize], comes: [[null, -32700]], status: 1 },
  {
    name: 'more headers, in other letters',
    sent: [bytes(`content-length:${length}\r\nContent-Type: application/vscode-jsonrpc; charset=utf-8\r\n\r\n${content}`), shutdown, exit],
    comes: [INITIALIZED, ENDED], status: 0,
  },
  { name: 'a frame byte by byte', sent: [...frame(initialize)].map((byte) => Buffer.from([byte])).concat(shutdown, exit), comes: [INITIALIZED, ENDED], status: 0 },
  { name: 'frames in one piece', sent: [Buffer.concat([initialize, shutdown, exit].map(frame))], comes: [INITIALIZED, ENDED], status: 0 },
  { name: 'no JSON', sent: ['{"jsonrpc"', initialize, shutdown, exit], comes: [[null, -32700], INITIALIZED, ENDED], status: 0 },
  { name: 'an empty frame', sent: ['', initialize, shutdown, exit], comes: [[null, -32700], INITIALIZED, ENDED], status: 0 },
  { name: 'a batch', sent: ['[]', initialize, shutdown, exit], comes: [[null, -32600], INITIALIZED, ENDED], status: 0 },
  { name: 'another protocol', sent: ['{"jsonrpc":"1.0","id":3,"method":"initialize"}', initialize, shutdown, exit], comes: [[null, -32600], INITIALIZED, ENDED], status: 0 },
  { name: 'a message without a method', sent: [initialize, { id: 7 }, shutdown, exit], comes: [INITIALIZED, [7, -32600], ENDED], status: 0 },
  { name: 'an id that is none', sent: [initialize, { id: {}, method: 'shutdown' }, shutdown, exit], comes: [INITIALIZED, [null, -32600], ENDED], status: 0 },
  { name: 'an answer that nobody asked for', sent: [initialize, { id: 5, result: null }, shutdown, exit], comes: [INITIALIZED, ENDED], status: 0 },
  { name: 'an id that is a text', sent: [{ ...initialize, id: 'one' }, shutdown, exit], comes: [['one', 'capabilities'], ENDED], status: 0 },
  { name: 'an unknown method', sent: [initialize, { id: 3, method: 'textDocument/fold', params: {} }, shutdown, exit], comes: [INITIALIZED, [3, -32601], ENDED], status: 0 },
  { name: 'a method named like a part of objects', sent: [initialize, { id: 3, method: 'constructor' }, shutdown, exit], comes: [INITIALIZED, [3, -32601], ENDED], status: 0 },
  { name: 'a notification that is asked as a request', sent: [initialize, { id: 3, method: 'textDocument/didOpen' }, shutdown, exit], comes: [INITIALIZED, [3, -32601], ENDED], status: 0 },
  { name: 'an unknown notification', sent: [initialize, { method: '$/unknown' }, { method: 'initialized', params: {} }, shutdown, exit], comes: [INITIALIZED, ENDED], status: 0 },
  { name: 'a request before initialize', sent: [hover(3, {}), initialize, shutdown, exit], comes: [[3, -32002], INITIALIZED, ENDED], status: 0 },
  { name: 'a document before initialize', sent: [open, initialize, hover(3, { textDocument, position: start }), shutdown, exit], comes: [INITIALIZED, [3, -32602], ENDED], status: 0 },
  { name: 'initialize again', sent: [initialize, { ...initialize, id: 3 }, shutdown, exit], comes: [INITIALIZED, [3, -32600], ENDED], status: 0 },
  { name: 'initialize without parameters', sent: [{ id: 1, method: 'initialize' }, shutdown, exit], comes: [INITIALIZED, ENDED], status: 0 },
  { name: 'a request after shutdown', sent: [initialize, shutdown, hover(3, {}), exit], comes: [INITIALIZED, ENDED, [3, -32600]], status: 0 },
  { name: 'a document that is not open', sent: [initialize, hover(3, { textDocument, position: start }), shutdown, exit], comes: [INITIALIZED, [3, -32602], ENDED], status: 0 },
  { name: 'no document', sent: [initialize, hover(3, { position: start }), shutdown, exit], comes: [INITIALIZED, [3, -32602], ENDED], status: 0 },
  { name: 'no parameters', sent: [initialize, { id: 3, method: 'textDocument/hover' }, shutdown, exit], comes: [INITIALIZED, [3, -32602], ENDED], status: 0 },
  { name: 'parameters that are null', sent: [initialize, hover(3, null), shutdown, exit], comes: [INITIALIZED, [3, -32602], ENDED], status: 0 },
  { name: 'a position that is none', sent: [initialize, hover(3, { textDocument, position: { line: -1, character: 0 } }), shutdown, exit], comes: [INITIALIZED, [3, -32602], ENDED], status: 0 },
  {
    name: 'notifications that are wrong',
    sent: [
      initialize, { method: 'textDocument/didOpen' }, { method: 'textDocument/didChange', params: { textDocument } }, { method: 'textDocument/didClose', params: null },
      { method: 'textDocument/didChange', params: { textDocument, contentChanges: [{}] } }, { method: '$/cancelRequest' }, shutdown, exit,
    ],
    comes: [INITIALIZED, ENDED], status: 0,
  },
];

module.exports = { CONVERSATIONS };
