'use strict';
// What bolgwyr check finds in a document.

const { Refusal } = require('../../analyse/refusal.js');
const { UsageFault } = require('../../bolgwyr/faults.js');
const { findingsOf, syntaxFinding } = require('../../check/findings.js');
const { settingsOfFile } = require('../settings.js');

const SEVERITIES = { error: 1, warn: 2 };
const UNNECESSARY = 1;
const UNNEEDED = new Set(['no-unused', 'unused-label']);
const START = { start: { line: 0, character: 0 }, end: { line: 0, character: 0 } };

// A place without a span has line and column alone.
function rangeOf({ places }, { span, line, column }) {
  if (span !== null && span.end > span.start) {
    return places.rangeOf(span);
  }
  return places.wordAt(span === null ? places.byteOfColumn(line, column) : span.start);
}

function messageOf({ message, said, help, note }) {
  const remarks = [['', said], ['help: ', help], ['note: ', note]].filter(([, text]) => text !== undefined);
  return [message, ...remarks.map(([word, text]) => word + text)].join('\n');
}

const relatedOf = (document) => (related) => (
  { location: { uri: document.uri, range: document.places.rangeOf(related.span) }, message: related.message }
);

function diagnosticOf(document, client, finding) {
  const { rule, severity, related } = finding;
  return {
    range: rangeOf(document, finding),
    severity: SEVERITIES[severity],
    code: rule,
    source: 'bolgwyr',
    message: messageOf(finding),
    ...(UNNEEDED.has(rule) && client.tags.includes(UNNECESSARY) && { tags: [UNNECESSARY] }),
    ...(related.length > 0 && client.takesRelated && { relatedInformation: related.map(relatedOf(document)) }),
  };
}

// The findings of a document, which its configuration may leave out. A text that no parser reads has one.
async function findingsIn(document) {
  const settings = settingsOfFile(document.name);
  if (settings.isIgnored) {
    return [];
  }
  try {
    return findingsOf(await document.ready(), settings);
  } catch (error) {
    if (!(error instanceof Refusal) || error.line === undefined) {
      throw error;
    }
    return [syntaxFinding(error)];
  }
}

// What is wrong with all of a document, or with its settings.
const whole = (message, code) => ({ range: START, severity: SEVERITIES.error, code, source: 'bolgwyr', message });

async function diagnostics(document, params, { client }) {
  try {
    return (await findingsIn(document)).map((finding) => diagnosticOf(document, client, finding));
  } catch (error) {
    if (error instanceof Refusal) {
      return [whole(error.message, 'syntax')];
    }
    if (error instanceof UsageFault) {
      return [whole(error.message, 'settings')];
    }
    throw error;
  }
}

module.exports = { diagnostics, findingsIn };
