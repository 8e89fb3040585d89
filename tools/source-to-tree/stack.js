'use strict';
// Converts again with a larger stack, in a thread of its own that the caller waits for: parsers use up the usual stack on
// trees that are less deep than those that are refused.

const { Worker, MessageChannel, receiveMessageOnPort, isMainThread, workerData } = require('worker_threads');
const { Refusal } = require('./refusal');
const { convertOnce, isOverflow } = require('./once');

const STACK_MEGABYTES = 128;

// What `convertOnce` gives on the larger stack.
function withLargeStack(source, options) {
  const { port1, port2 } = new MessageChannel();
  const done = new Int32Array(new SharedArrayBuffer(4));
  const worker = new Worker(__filename, {
    workerData: { source, options, port: port2, done },
    transferList: [port2],
    resourceLimits: { stackSizeMb: STACK_MEGABYTES },
  });
  Atomics.wait(done, 0, 0);
  const { message } = receiveMessageOnPort(port1);
  worker.unref();
  port1.close();
  if (message.refusal) throw Object.assign(new Refusal(message.refusal.message), message.refusal);
  if (message.error) throw new Error(message.error);
  Object.assign(options.clock || {}, message.clock);
  return { json: Buffer.from(message.json), source };
}

function answer({ source, options }) {
  const clock = {};
  try {
    return { json: Buffer.from(convertOnce(source, { ...options, clock }).json), clock };
  } catch (error) {
    if (isOverflow(error)) return { refusal: { message: 'too deep' } };
    if (error instanceof Refusal) return { refusal: { message: error.message, line: error.line, column: error.column } };
    return { error: error.stack };
  }
}

function serve({ port, done, ...request }) {
  port.postMessage(answer(request));
  Atomics.store(done, 0, 1);
  Atomics.notify(done, 0);
}

if (!isMainThread && workerData && workerData.done) serve(workerData);

module.exports = { withLargeStack };
