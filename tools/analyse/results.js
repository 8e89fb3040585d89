'use strict';
// One file's analysis in the form asked for, with its counts.

const { analyseFile, readAnalysis } = require('./analysis.js');
const { jsonObject, refusalObject } = require('./json.js');
const { Refusal } = require('./refusal.js');
const { countsOf } = require('./summary.js');
const { textLines } = require('./text.js');

// How a file's analysis is written down, and how a refusal is: each file gets a result. No report is empty.
const FORMS = {
  json: {
    ending: '.json',
    analysed: (found, analysis) => `${JSON.stringify(jsonObject(analysis))}\n`,
    refused: (file, refusal) => `${JSON.stringify(refusalObject(file, refusal))}\n`,
  },
  text: {
    ending: '.txt',
    analysed: (found, analysis) => textLines(analysis).map((line) => `${line}\n`).join(''),
    refused: (file, refusal) => `${refusal.lineFor(file)}\n`,
  },
  report: {
    ending: '.report',
    analysed: (found) => found.bytes,
    refused: () => '',
  },
};

// The result of a file and its row for a summary. `name` is what the file is called there.
function resultOf(file, name, settings) {
  const form = FORMS[settings.form];
  try {
    const found = analyseFile(file, settings);
    const analysis = { ...readAnalysis(found), file: name };
    return { content: form.analysed(found, analysis), row: { file: name, ...countsOf(analysis.report) } };
  } catch (error) {
    if (!(error instanceof Refusal)) {
      throw error;
    }
    return { content: form.refused(name, error), row: refusalObject(name, error) };
  }
}

const endingOf = (form) => FORMS[form].ending;

module.exports = { endingOf, resultOf };
