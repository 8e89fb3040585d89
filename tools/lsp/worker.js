'use strict';
// The thread that analyses and answers.

const { parentPort, workerData } = require('worker_threads');
const { ChangingTree } = require('../source-to-tree/pieces/tree.js');
const { abandonRuns, prepareFirst } = require('./programs.js');
const { AnalysedDocument } = require('./analysed-document.js');
const { faultOf } = require('./refusals.js');
const { ANSWERS } = require('./answers/index.js');

const { client } = workerData;
const analysed = new Map();
const trees = new Map(); // of each document as it changes
let asked = null; // the document of the last question

function documentOf({ uri, document }) {
  if (!trees.has(uri)) {
    trees.set(uri, new ChangingTree());
  }
  if (document !== null) {
    analysed.set(uri, new AnalysedDocument(document, client, trees.get(uri)));
  }
  return analysed.get(uri);
}

// The message that answers a question; its result is JSON, which is passed on faster than objects are.
async function answerTo(question) {
  const notices = [];
  const document = documentOf(question);
  asked = document;
  try {
    const result = await ANSWERS[question.method](document, question.params, { client, notice: (notice) => notices.push(notice) });
    return { result: JSON.stringify(result ?? null), notices, times: document.timesOnce() };
  } catch (error) {
    const { kind, message, data } = faultOf(error, document);
    return { fault: { kind, message, data }, notices };
  }
}

parentPort.on('message', async (message) => {
  if (message.isVoid) {
    asked.isLeft = true;
    abandonRuns();
  } else if (message.closed !== undefined) {
    analysed.delete(message.closed);
    trees.delete(message.closed);
  } else {
    parentPort.postMessage(await answerTo(message));
  }
});

prepareFirst((notice) => parentPort.postMessage({ notice }));
