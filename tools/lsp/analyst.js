'use strict';
// Asks the thread that analyses, one question at a time, so that the server can always hear the client. What is asked of a text
// that changes meanwhile gets no answer.

const path = require('path');
const { Worker } = require('worker_threads');
const { textOf } = require('./documents.js');
const { ResponseFault } = require('./faults.js');
const { JsonText } = require('./frames.js');

const WORKER = path.join(__dirname, 'worker.js');

// What is asked when no question waits.
const LATER = ['diagnostics', 'tables'];

// A thread that dies is started again, but not for ever.
const MOST_DEATHS = 5;

class Analyst {
  // `told(notice)` hears what people are to know, and `lost()` that no thread stays alive.
  constructor({ documents, client, told, lost, log }) {
    Object.assign(this, { documents, client, told, lost, log });
    this.deaths = 0;
    this.waiting = new Map(); // questions by their keys, in order
    this.due = new Map(); // what is asked of documents when nobody waits, by method and URI
    this.running = null;
    this.start();
  }

  start() {
    this.known = new Map(); // the revision of each document that the thread has
    this.worker = new Worker(WORKER, { workerData: { client: this.client }, stdout: true });
    this.worker.stdout.pipe(process.stderr);
    this.worker.on('message', (message) => this.hear(message));
    let cause = new Error('it ended by itself');
    this.worker.on('error', (error) => { cause = error; });
    this.worker.on('exit', () => this.restart(cause));
  }

  // A thread that died takes its question with it.
  restart(cause) {
    this.log(`the thread that analyses ended: ${cause.stack}`);
    this.deaths += 1;
    if (this.deaths > MOST_DEATHS) {
      this.lost();
      return;
    }
    const job = this.running;
    this.running = null;
    this.start();
    if (job !== null && !job.isVoid) {
      job.reject(new ResponseFault('internalError', `the analysis ended: ${cause.message}`));
    }
    this.next();
  }

  // The answer on a document as it stands.
  ask(key, uri, method, params) {
    const { revision } = this.documents.get(uri);
    return new Promise((resolve, reject) => {
      this.waiting.set(key, { key, uri, revision, method, params, resolve, reject });
      this.next();
    });
  }

  // Asks on a document once no question waits; the answer is told with the version of the document, unless it has changed.
  askLater(uri, method, answered) {
    const key = `${method} ${uri}`;
    this.due.set(key, { key, uri, method, answered });
    this.next();
  }

  takeNext() {
    const [first] = this.waiting.values();
    if (first !== undefined) {
      this.waiting.delete(first.key);
      return first;
    }
    const [later] = this.due.values();
    if (later === undefined) {
      return null;
    }
    this.due.delete(later.key);
    const { revision, version } = this.documents.get(later.uri);
    return { ...later, revision, params: {}, resolve: (result) => later.answered(result, version), reject: (fault) => this.log(fault.message) };
  }

  next() {
    if (this.running !== null) {
      return;
    }
    this.running = this.takeNext();
    if (this.running !== null) {
      this.post(this.running);
    }
  }

  // Sends a question, with the document where the thread has another state of it.
  post({ uri, revision, method, params }) {
    const document = this.documents.get(uri);
    const isKnown = this.known.get(uri) === revision;
    this.known.set(uri, revision);
    const sent = isKnown ? null : { uri, version: document.version, name: document.name, text: textOf(document) };
    this.worker.postMessage({ uri, method, params, document: sent });
  }

  hear({ result, fault, notices = [], times, notice }) {
    if (notice !== undefined) {
      this.told(notice);
      return;
    }
    const job = this.running;
    this.running = null;
    if (times) {
      this.log(`${job.uri}: ${times}`);
    }
    if (!job.isVoid) {
      notices.forEach(this.told);
      if (fault === undefined) {
        job.resolve(new JsonText(result));
      } else {
        job.reject(new ResponseFault(fault.kind, fault.message, fault.data));
      }
    }
    this.next();
  }

  // Takes back what fits, and says why.
  drop(fits, kind, message) {
    for (const job of this.waiting.values()) {
      if (fits(job)) {
        this.waiting.delete(job.key);
        job.reject(new ResponseFault(kind, message));
      }
    }
    if (this.running !== null && !this.running.isVoid && fits(this.running)) {
      this.running.isVoid = true;
      this.running.reject(new ResponseFault(kind, message));
    }
  }

  // Has the thread leave a question on a document that has changed, as soon as it waits for a program.
  leave(uri) {
    if (this.running !== null && this.running.uri === uri && !this.running.isLeft) {
      this.running.isLeft = true;
      this.worker.postMessage({ isVoid: true });
    }
  }

  cancel(key) {
    this.drop((job) => job.key === key, 'requestCancelled', 'the client took the request back');
  }

  changed(uri) {
    LATER.forEach((method) => this.due.delete(`${method} ${uri}`));
    this.drop((job) => job.uri === uri, 'contentModified', 'the document has changed since it was asked');
    this.leave(uri);
  }

  closed(uri) {
    this.changed(uri);
    if (this.known.delete(uri)) {
      this.worker.postMessage({ closed: uri });
    }
  }
}

module.exports = { Analyst };
