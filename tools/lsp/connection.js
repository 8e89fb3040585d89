'use strict';
// JSON-RPC 2.0 over frames: requests, which are answered, and notifications, which aren't.

const { FrameReader, frameOf } = require('./frames.js');
const { ResponseFault } = require('./faults.js');

const isId = (id) => typeof id === 'string' || typeof id === 'number';
const isObject = (value) => value !== null && typeof value === 'object' && !Array.isArray(value);

class Connection {
  // `request(method, params, id)` gives a result or a promise of it, or throws; `notified(method, params)` hears the others, and
  // `lost()` that no further frame can be read.
  constructor(output, { request, notified, lost, log }) {
    Object.assign(this, { output, request, notified, log });
    this.reader = new FrameReader({
      take: (content) => this.take(content),
      refuse: (cause, isLost) => {
        this.fail(null, new ResponseFault('parseError', cause));
        if (isLost) {
          lost();
        }
      },
    });
  }

  push(chunk) {
    this.reader.push(chunk);
  }

  send(message) {
    this.output.write(frameOf({ jsonrpc: '2.0', ...message }));
  }

  notify(method, params) {
    this.send({ method, params });
  }

  fail(id, fault) {
    this.log(`refused: ${fault.message}`);
    this.send({ id, error: fault.error });
  }

  take(content) {
    let message;
    try {
      message = JSON.parse(content);
    } catch (error) {
      this.fail(null, new ResponseFault('parseError', `no JSON: ${error.message}`));
      return;
    }
    this.dispatch(message);
  }

  dispatch(message) {
    if (!isObject(message) || message.jsonrpc !== '2.0' || (message.id !== undefined && message.id !== null && !isId(message.id))) {
      this.fail(null, new ResponseFault('invalidRequest', 'no message of JSON-RPC 2.0'));
    } else if (typeof message.method === 'string') {
      this.handle(message);
    } else if (!('result' in message) && !('error' in message)) {
      this.fail(message.id ?? null, new ResponseFault('invalidRequest', 'a message without a method'));
    }
  }

  handle({ id, method, params }) {
    this.log(isId(id) ? `request ${id} ${method}` : method);
    if (isId(id)) {
      this.answer(id, method, params ?? {});
      return;
    }
    try {
      this.notified(method, params ?? {});
    } catch (error) {
      this.log(`${method}: ${error instanceof ResponseFault ? error.message : error.stack}`);
    }
  }

  // What can be answered at once is, so that answers come in the order of their requests.
  answer(id, method, params) {
    const succeed = (result) => this.send({ id, result: result ?? null });
    const refuse = (error) => this.refuse(id, error);
    try {
      const result = this.request(method, params, id);
      if (result instanceof Promise) {
        result.then(succeed, refuse);
      } else {
        succeed(result);
      }
    } catch (error) {
      refuse(error);
    }
  }

  refuse(id, error) {
    const isFault = error instanceof ResponseFault;
    if (!isFault) {
      this.log(error.stack);
    }
    this.fail(id, isFault ? error : new ResponseFault('internalError', error.message));
  }
}

module.exports = { Connection };
