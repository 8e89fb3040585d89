'use strict';
// What the analyser says of a tree, by places in the source: references, and the names that each scope binds.

const { spawnSync } = require('child_process');
const { programPath } = require('../programs/index.js');

// The report that a run gave, or why there is none.
function reportIn({ status, stdout, stderr }) {
  if (status === 0 || status === 1) return { report: stdout.toString() };
  return { refused: `status ${status}: ${stderr.toString().trim()}` };
}

// The report of a tree. The words are the report program's.
const reportOf = (json, words = []) => reportIn(spawnSync(programPath('report_main'), words, { input: json, maxBuffer: 1 << 30 }));

const LINE = {
  scope: /^scope (\d+) parent (\S+) node (\d+) flags (\S+)$/,
  bind: /^bind (\d+) ("(?:[^"\\]|\\.)*") (\d+)$/,
  symbol: /^symbol (\d+) ("(?:[^"\\]|\\.)*") scope (\d+) node (\d+) span (\d+)-(\d+) flags (\S+)$/,
  redecl: /^redecl (\d+) node (\d+) span (\d+)-(\d+) flags (\S+)$/,
  ref: /^ref (\d+) ("(?:[^"\\]|\\.)*") node (\d+) scope (\d+) flags (\S+) symbol (\S+)$/,
};

function linesOf(report, word) {
  return report.split('\n').filter((line) => line.startsWith(`${word} `)).map((line) => LINE[word].exec(line));
}

// For each node the place of its parent among the rows.
function parentsOf(rows) {
  const open = [];
  return rows.map(([depth], i) => {
    open[depth] = i;
    return depth === 0 ? 0 : open[depth - 1];
  });
}

const DECLARING = new Set(['Program', 'FunctionBody', 'StaticBlock', 'ExportDeclaration', 'ExportDefaultDeclaration']);

// Where the names of functions stand that are declared in a block, a case, a branch or behind a label.
function blockFunctionsOf(rows, parents) {
  const starts = new Set();
  rows.forEach(([, role, kind, start], i) => {
    const outer = parents[i];
    if (role !== 'id' || kind !== 'BindingIdentifier' || rows[outer][2] !== 'Function' || rows[outer][5] !== 'declaration') return;
    if (!DECLARING.has(rows[parents[outer]][2])) starts.add(start);
  });
  return starts;
}

class Analysis {
  constructor(tree, report) {
    this.rows = tree.rows;
    this.parents = parentsOf(tree.rows);
    this.blockFunctions = blockFunctionsOf(this.rows, this.parents);
    this.symbols = linesOf(report, 'symbol').map(([, , name, scope, node, start, , flags]) => (
      { name: JSON.parse(name), scope: Number(scope), node: Number(node), starts: new Set([Number(start)]), flags: flags.split('+') }));
    for (const [, symbol, , start] of linesOf(report, 'redecl')) this.symbols[symbol].starts.add(Number(start));
    this.scopes = linesOf(report, 'scope').map(([, , , node, flags]) => ({ node: Number(node), flags: flags.split('+'), names: new Map() }));
    for (const [, scope, name, symbol] of linesOf(report, 'bind')) this.scopes[scope].names.set(JSON.parse(name), this.symbols[symbol]);
    this.references = linesOf(report, 'ref').map(([, , name, node, scope, flags, symbol]) => (
      { name: JSON.parse(name), node: Number(node), scope: Number(scope), flags: flags.split('+'), symbol: this.symbols[symbol] }));
  }

  kind(node) {
    return this.rows[node][2];
  }

  start(node) {
    return this.rows[node][3];
  }
}

module.exports = { reportIn, reportOf, Analysis };
