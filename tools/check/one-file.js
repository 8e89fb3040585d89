'use strict';
// The result of one file: `{ file, findings, text, key }`, where `text` is there for files with findings, or `failure` in the
// place of an answer.

const { bytesOf, decode } = require('../analyse/files.js');
const { Refusal } = require('../analyse/refusal.js');
const { syntaxFinding } = require('./findings.js');
const { keyOf } = require('./keys.js');

// The text of bytes, or the findings that they have in its place: there is no line to show then.
function textOf(bytes) {
  try {
    return { text: decode(bytes) };
  } catch (error) {
    return { text: '', findings: [{ ...syntaxFinding(error), span: null }] };
  }
}

function withText(result, bytes) {
  return result.findings.length === 0 ? result : { ...result, text: textOf(bytes).text };
}

function failed({ file }, error) {
  if (!(error instanceof Refusal)) {
    throw error;
  }
  return { file, findings: [], failure: error.message };
}

// The result of a job, `{ file, name, settings }` and its `size` where that is known; `check` gives the findings of a text. Without a stamp nothing is kept, and there is no key.
async function resultOf(job, stamp, check) {
  try {
    const bytes = bytesOf(job.file, job.size);
    const { text, findings } = textOf(bytes);
    const found = findings ?? await check(text, { ...job.settings, file: job.name });
    const key = stamp === '' ? undefined : keyOf(stamp, bytes, job);
    return withText({ file: job.file, key, findings: found }, bytes);
  } catch (error) {
    return failed(job, error);
  }
}

// The result that the cache has, else undefined. What can't be read is told by `resultOf`.
function keptResult(job, cache) {
  try {
    const bytes = bytesOf(job.file);
    const findings = cache.get(keyOf(cache.stamp, bytes, job));
    return findings === undefined ? undefined : withText({ file: job.file, findings }, bytes);
  } catch (error) {
    return undefined;
  }
}

module.exports = { keptResult, resultOf };
