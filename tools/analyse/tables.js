'use strict';
// Shows the tables of files: as the report, as objects, or as lines for people.

const { STATUS } = require('../bolgwyr/faults.js');
const { analyseFile, readAnalysis } = require('./analysis.js');
const { jsonObject, refusalObject } = require('./json.js');
const { say, tell } = require('./output.js');
const { Refusal } = require('./refusal.js');
const { Sum, countsOf, fileLine } = require('./summary.js');
const { textLines } = require('./text.js');
const { timeLine } = require('./times.js');

// How a file's analysis is shown, by the form asked for.
const FORMS = {
  json: (analysis) => `${JSON.stringify(jsonObject(analysis))}\n`,
  text: (analysis) => textLines(analysis).map((line) => `${line}\n`).join(''),
  line: (analysis) => `${fileLine(analysis.file, countsOf(analysis.report))}\n`,
};

// Shows one file. A plain report goes out as it came.
function showFile({ file, name }, settings, sum) {
  const found = analyseFile(file, { ...settings, file: name });
  if (settings.time) {
    tell(timeLine(name, found.times));
  }
  if (settings.form === 'report') {
    say(found.bytes);
    sum.addReport(found.diagnosed);
    return;
  }
  const analysis = readAnalysis(found);
  say(FORMS[settings.form](analysis));
  sum.add(countsOf(analysis.report));
}

function refuse(file, refusal, settings, sum) {
  tell(refusal.lineFor(file));
  if (settings.form === 'json') {
    say(`${JSON.stringify(refusalObject(file, refusal))}\n`);
  }
  sum.addRefused(refusal.line !== undefined);
}

function statusOf(sum) {
  if (sum.unread > 0) {
    return STATUS.FAILED;
  }
  return sum.clean ? STATUS.CLEAN : STATUS.FOUND;
}

// Shows files, `{ file, name }` each, and gives the status. Settings: `form` (`report`, `json`, `text` or `line`), `words` for
// the report program, `tree`, `parser`, `goal` and `time`.
function showTables(files, settings) {
  const sum = new Sum();
  for (const file of files) {
    try {
      showFile(file, settings, sum);
    } catch (error) {
      if (!(error instanceof Refusal)) {
        throw error;
      }
      refuse(file.name, error, settings, sum);
    }
  }
  if (settings.form === 'line' || (settings.form === 'text' && files.length > 1)) {
    say(`${sum.line()}\n`);
  }
  return statusOf(sum);
}

module.exports = { showTables };
