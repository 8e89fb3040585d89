'use strict';
// The command `bolgwyr link`.

const { say, tell } = require('../analyse/output.js');
const { printable } = require('../analyse/refusal.js');
const { STATUS } = require('../bolgwyr/faults.js');
const { FORMATS } = require('./formats.js');
const { GRAPHS, graphOf } = require('./graph.js');
const { linkSet, moduleSet } = require('./index.js');

const sayLines = (lines) => say(lines.map((line) => `${line}\n`).join(''));

const tellFaults = (faults) => faults.forEach(({ entry, message }) => tell(`${printable(entry)}: ${message}`));

function showGraph(entries, form) {
  const set = moduleSet(entries);
  sayLines(GRAPHS[form](graphOf(set)));
  tellFaults(set.faults);
  return set.faults.length > 0 ? STATUS.FAILED : STATUS.CLEAN;
}

function showFindings(entries, { format, strict, packages }) {
  const linked = linkSet(entries, { strict, packages });
  sayLines(FORMATS[format](linked));
  tellFaults(linked.set.faults);
  if (linked.set.faults.length > 0) {
    return STATUS.FAILED;
  }
  return linked.findings.length > 0 ? STATUS.FOUND : STATUS.CLEAN;
}

function run(entries, settings) {
  process.exitCode = settings.graph === undefined ? showFindings(entries, settings) : showGraph(entries, settings.graph);
}

module.exports = { run };
