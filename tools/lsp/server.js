'use strict';
// The server between a client and the thread that analyses: which method does what.

const { Analyst } = require('./analyst.js');
const { clientOf, offerTo } = require('./capabilities.js');
const { Connection } = require('./connection.js');
const { Documents } = require('./documents.js');
const { ResponseFault } = require('./faults.js');
const { uriOf } = require('./methods.js');

// How long after its diagnostics the tables of a text are made ready for the next request.
const LEISURE_MILLISECONDS = 400;

const PUBLISH = 'textDocument/publishDiagnostics';
const SHOW = 'window/showMessage';

class Server {
  // `ended(status)` is called once.
  constructor({ output, ended, log }) {
    Object.assign(this, { ended, log });
    this.client = null;
    this.isShutDown = false;
    this.isEnded = false;
    this.timers = new Map();
    this.connection = new Connection(output, {
      request: (method, params, id) => this.request(method, params, id),
      notified: (method, params) => this.notified(method, params),
      lost: () => this.end(),
      log,
    });
  }

  push(chunk) {
    this.connection.push(chunk);
  }

  request(method, params, id) {
    if (this.isShutDown) {
      throw new ResponseFault('invalidRequest', 'the server is shut down');
    }
    if (this.client === null && method !== 'initialize') {
      throw new ResponseFault('serverNotInitialized', 'the first request is initialize');
    }
    if (Object.hasOwn(REQUESTS, method)) {
      return REQUESTS[method](this, params);
    }
    const uri = uriOf(method, params);
    return this.analyst.ask(`request ${typeof id} ${id}`, uri, method, params);
  }

  notified(method, params) {
    const isHeard = method === 'exit' || (this.client !== null && !this.isShutDown);
    if (isHeard && Object.hasOwn(NOTIFICATIONS, method)) {
      NOTIFICATIONS[method](this, params);
    }
  }

  start(client) {
    this.client = client;
    this.documents = new Documents(client.encoding);
    const told = ({ type, message }) => this.connection.notify(SHOW, { type, message: `bolgwyr: ${message}` });
    this.analyst = new Analyst({ documents: this.documents, client, told, lost: () => this.end(), log: this.log });
  }

  // Has a document's diagnostics published, once all is heard that came with what it is told for.
  diagnose(uri) {
    this.after(0, uri, () => {
      this.analyst.askLater(uri, 'diagnostics', (diagnostics, version) => this.publish(uri, version, diagnostics));
    });
  }

  publish(uri, version, diagnostics) {
    this.connection.notify(PUBLISH, { uri, version, diagnostics });
    this.after(LEISURE_MILLISECONDS, uri, () => this.analyst.askLater(uri, 'tables', () => {}));
  }

  // Does something on a document after a while in which nothing else was to be done on it.
  after(pause, uri, act) {
    this.forget(uri);
    this.timers.set(uri, setTimeout(() => {
      this.timers.delete(uri);
      act();
    }, pause));
  }

  forget(uri) {
    clearTimeout(this.timers.get(uri));
    this.timers.delete(uri);
  }

  // Ends with status 0 where the client said so before.
  end() {
    if (!this.isEnded) {
      this.isEnded = true;
      this.timers.forEach((timer) => clearTimeout(timer));
      this.ended(this.isShutDown ? 0 : 1);
    }
  }
}

function checkedChanges({ contentChanges }) {
  if (!Array.isArray(contentChanges)) {
    throw new ResponseFault('invalidParams', 'a list of changes is wanted');
  }
  return contentChanges;
}

const REQUESTS = {
  initialize: (server, { capabilities }) => {
    if (server.client !== null) {
      throw new ResponseFault('invalidRequest', 'the server is initialized');
    }
    server.start(clientOf(capabilities ?? {}));
    return offerTo(server.client);
  },
  shutdown: (server) => {
    server.isShutDown = true;
    return null;
  },
};

const NOTIFICATIONS = {
  exit: (server) => server.end(),
  'textDocument/didOpen': (server, { textDocument }) => {
    const { uri } = server.documents.add(textDocument ?? {});
    server.diagnose(uri);
  },
  'textDocument/didChange': (server, params) => {
    const { uri } = server.documents.change(params.textDocument ?? {}, checkedChanges(params));
    server.analyst.changed(uri);
    server.diagnose(uri);
  },
  // The settings around it may have changed.
  'textDocument/didSave': (server, { textDocument }) => server.diagnose(server.documents.get(textDocument?.uri).uri),
  'textDocument/didClose': (server, { textDocument }) => {
    const { uri } = server.documents.get(textDocument?.uri);
    server.forget(uri);
    server.analyst.closed(uri);
    server.documents.remove(uri);
    server.connection.notify(PUBLISH, { uri, diagnostics: [] });
  },
  'workspace/didChangeWatchedFiles': (server) => [...server.documents.open.keys()].forEach((uri) => server.diagnose(uri)),
  '$/cancelRequest': (server, { id }) => server.analyst.cancel(`request ${typeof id} ${id}`),
};

module.exports = { Server };
