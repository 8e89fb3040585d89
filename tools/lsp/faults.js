'use strict';
// Errors of the protocol, with their numbers.

const CODES = {
  parseError: -32700,
  invalidRequest: -32600,
  methodNotFound: -32601,
  invalidParams: -32602,
  internalError: -32603,
  serverNotInitialized: -32002,
  requestFailed: -32803,
  contentModified: -32801,
  requestCancelled: -32800,
};

// Why a request has no result. `kind` is one of the codes' names.
class ResponseFault extends Error {
  constructor(kind, message, data) {
    super(message);
    this.kind = kind;
    this.data = data;
  }

  get error() {
    return { code: CODES[this.kind], message: this.message, ...(this.data !== undefined && { data: this.data }) };
  }
}

module.exports = { ResponseFault };
