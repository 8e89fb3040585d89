'use strict';
// From the rows of all jobs to a summary.

const fs = require('fs');
const { Refusal } = require('./refusal.js');
const { Sum, fileLine } = require('./summary.js');

// How many files are named in what is printed.
const NAMED = 10;

// The last row of each file: a job that ran again told some twice, and one that was broken off may end in half a line.
function readRows(file) {
  const rows = new Map();
  const text = fs.existsSync(file) ? fs.readFileSync(file, 'utf8') : '';
  for (const line of text.split('\n')) {
    const row = line.endsWith('}') ? JSON.parse(line) : null;
    if (row !== null) {
      rows.set(row.file, row);
    }
  }
  return rows;
}

function lineOf(row) {
  if (row.refused === undefined) {
    return fileLine(row.file, row);
  }
  return new Refusal(row.refused.message, row.refused).lineFor(row.file);
}

function sumOf(rows) {
  const sum = new Sum();
  for (const row of rows) {
    if (row.refused === undefined) {
      sum.add(row);
    } else {
      sum.addRefused();
    }
  }
  return sum;
}

// The first few lines, and how many more there are.
function firstLines(lines) {
  const more = lines.length - NAMED;
  return more <= 0 ? lines : [...lines.slice(0, NAMED), `and ${more} more`];
}

// The summary of a run over these files: rows in their order, the lines to print, and what has no row yet.
function summarise(names, rowsFile) {
  const found = readRows(rowsFile);
  const rows = names.filter((name) => found.has(name)).map((name) => found.get(name));
  const sum = sumOf(rows);
  const notable = rows.filter((row) => row.refused !== undefined || row.diagnostics > 0).map(lineOf);
  return { rows, sum, missing: names.length - rows.length, lines: [...firstLines(notable), sum.line()] };
}

module.exports = { summarise };
