'use strict';
// SARIF 2.1.0, the form in which analysers tell findings to each other's viewers.

const path = require('path');
const { RULES, SYNTAX } = require('../rules.js');
const { version } = require('../../../package.json');

const SCHEMA = 'https://json.schemastore.org/sarif-2.1.0.json';

const ABOUT = { [SYNTAX]: 'texts that no parser reads', ...Object.fromEntries(Object.entries(RULES).map(([name, { about }]) => [name, about])) };
const NAMES = Object.keys(ABOUT);

// A relative path as an address; a file elsewhere has a whole one.
function uriOf(file) {
  const parts = file.split(path.sep).map(encodeURIComponent).join('/');
  return path.isAbsolute(file) ? `file://${parts}` : parts;
}

function locationOf(file, { line, column, endLine, endColumn }) {
  const region = { startLine: line, startColumn: column, endLine, endColumn };
  return { physicalLocation: { artifactLocation: { uri: uriOf(file) }, region } };
}

function relatedOf(file, related) {
  return related.map((other, id) => ({ id, message: { text: other.message }, ...locationOf(other.file ?? file, other) }));
}

function resultOf(file, finding) {
  return {
    ruleId: finding.rule,
    ruleIndex: NAMES.indexOf(finding.rule),
    level: finding.severity === 'error' ? 'error' : 'warning',
    message: { text: finding.message },
    locations: [locationOf(file, finding)],
    ...(finding.related.length > 0 && { relatedLocations: relatedOf(file, finding.related) }),
  };
}

function noticeOf({ file, failure }) {
  return { level: 'error', message: { text: failure }, locations: [{ physicalLocation: { artifactLocation: { uri: uriOf(file) } } }] };
}

function format(results) {
  const failed = results.filter(({ failure }) => failure !== undefined);
  const rules = NAMES.map((id) => ({ id, shortDescription: { text: ABOUT[id] } }));
  const run = {
    tool: { driver: { name: 'bolgwyr', version, rules } },
    columnKind: 'unicodeCodePoints',
    invocations: [{ executionSuccessful: failed.length === 0, toolExecutionNotifications: failed.map(noticeOf) }],
    results: results.flatMap(({ file, findings }) => findings.map((finding) => resultOf(file, finding))),
  };
  return `${JSON.stringify({ $schema: SCHEMA, version: '2.1.0', runs: [run] }, null, 2)}\n`;
}

module.exports = { format };
