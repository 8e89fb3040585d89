'use strict';
// From the text of a report to its scopes, symbols, references and diagnostics.

const { RunFault } = require('../bolgwyr/faults.js');
const { Cursor } = require('./cursor.js');

// A line that no report has.
class ReportFault extends RunFault {
  constructor(lineNumber, line, cause) {
    const shown = line.length > 80 ? `${line.slice(0, 80)}...` : line;
    super(`line ${lineNumber} of the report isn't known: ${cause}: ${shown}`);
  }
}

function emptyReport() {
  return {
    nodes: [],
    scopes: [],
    symbols: [],
    references: [],
    free: [],
    classes: [],
    unusedLabels: [],
    stats: null,
    made: null,
    diagnostics: [],
  };
}

// The entry of this id, which an earlier line made.
function entry(list, id, what) {
  if (id >= list.length) {
    throw new SyntaxError(`there is no ${what} ${id}`);
  }
  return list.at(id);
}

// An entry that has this id.
function checked(made, id, what) {
  if (made.id !== id) {
    throw new SyntaxError(`${what} ${id} wanted`);
  }
  return made;
}

// Adds an entry whose id is the next one.
function add(list, made, what) {
  list.push(checked(made, list.length, what));
}

function readNode(cursor, report) {
  const id = cursor.number();
  cursor.expect(' ');
  const kind = cursor.word();
  const parent = cursor.labelled(' parent ');
  add(report.nodes, { id, kind, parent, scope: cursor.labelled(' scope ') }, 'node');
}

function readScope(cursor, report) {
  const id = cursor.number();
  cursor.expect(' parent ');
  const parent = cursor.numberOrDash();
  const node = cursor.labelled(' node ');
  cursor.expect(' flags ');
  add(report.scopes, { id, parent, node, flags: cursor.flags(), bindings: [] }, 'scope');
}

function readBinding(cursor, report) {
  const scope = entry(report.scopes, cursor.number(), 'scope');
  cursor.expect(' ');
  const name = cursor.quoted();
  scope.bindings.push({ name, symbol: cursor.labelled(' ') });
}

function readSymbol(cursor, report) {
  const id = cursor.number();
  cursor.expect(' ');
  const name = cursor.quoted();
  const scope = cursor.labelled(' scope ');
  const node = cursor.labelled(' node ');
  cursor.expect(' span ');
  const span = cursor.span();
  cursor.expect(' flags ');
  const flags = cursor.flags();
  const made = { id, name, scope, node, span, flags, redeclarations: [], references: [], pure: false };
  add(report.symbols, made, 'symbol');
}

function readRedeclaration(cursor, report) {
  const symbol = entry(report.symbols, cursor.number(), 'symbol');
  const node = cursor.labelled(' node ');
  cursor.expect(' span ');
  const span = cursor.span();
  cursor.expect(' flags ');
  symbol.redeclarations.push({ node, span, flags: cursor.flags() });
}

function readUses(cursor, report) {
  const symbol = entry(report.symbols, cursor.number(), 'symbol');
  symbol.references = cursor.numbers();
}

function readPure(cursor, report) {
  entry(report.symbols, cursor.number(), 'symbol').pure = true;
}

function referenceOf(cursor) {
  const id = cursor.number();
  cursor.expect(' ');
  const name = cursor.quoted();
  const node = cursor.labelled(' node ');
  const scope = cursor.labelled(' scope ');
  cursor.expect(' flags ');
  const flags = cursor.flags();
  cursor.expect(' symbol ');
  return { id, name, node, scope, flags, symbol: cursor.numberOrDash() };
}

function readReference(cursor, report) {
  add(report.references, referenceOf(cursor), 'reference');
}

function readFree(cursor, report) {
  const name = cursor.quoted();
  report.free.push({ name, references: cursor.numbers() });
}

function readClass(cursor, report) {
  const id = cursor.number();
  const node = cursor.labelled(' node ');
  cursor.expect(' parent ');
  add(report.classes, { id, node, parent: cursor.numberOrDash(), elements: [], uses: [] }, 'class');
}

function readElement(cursor, report) {
  const owner = entry(report.classes, cursor.number(), 'class');
  const id = cursor.labelled(' ');
  cursor.expect(' ');
  const name = cursor.quoted();
  cursor.expect(' span ');
  const span = cursor.span();
  cursor.expect(' ');
  const isPrivate = cursor.oneOf('private', 'public');
  cursor.expect(' ');
  const isStatic = cursor.oneOf('static', 'instance');
  cursor.expect(' kind ');
  add(owner.elements, { id, name, span, isPrivate, isStatic, kind: cursor.flags() }, 'element');
}

function readPrivateUse(cursor, report) {
  const owner = entry(report.classes, cursor.number(), 'class');
  const node = cursor.labelled(' node ');
  cursor.expect(' ');
  const name = cursor.quoted();
  cursor.expect(' span ');
  const span = cursor.span();
  cursor.expect(' elements');
  owner.uses.push({ node, name, span, elements: cursor.numbers() });
}

function readUnusedLabel(cursor, report) {
  report.unusedLabels.push({ node: cursor.number() });
}

function readStats(cursor, report) {
  cursor.expect('nodes ');
  const nodes = cursor.number();
  const scopes = cursor.labelled(' scopes ');
  const symbols = cursor.labelled(' symbols ');
  report.stats = { nodes, scopes, symbols, references: cursor.labelled(' references ') };
}

// The summary of a script that the program made itself, which has the counts of its report in place of the lines.
function readMade(cursor, report) {
  cursor.expect('nodes ');
  const nodes = cursor.number();
  const scopes = cursor.labelled(' scopes ');
  const symbols = cursor.labelled(' symbols ');
  const references = cursor.labelled(' references ');
  report.made = { nodes, scopes, symbols, references, free: cursor.labelled(' free ') };
}

function readDiagnostic(cursor, report) {
  const code = cursor.word();
  cursor.expect(' ');
  const message = cursor.quoted();
  const labels = [];
  while (cursor.takes(' at ')) {
    const span = cursor.span();
    cursor.expect(' ');
    labels.push({ span, text: cursor.quotedOrDash() });
  }
  cursor.expect(' help ');
  const help = cursor.quotedOrDash();
  cursor.expect(' note ');
  const note = cursor.quotedOrDash();
  report.diagnostics.push({ code: code === '-' ? null : code, message, labels, help, note });
}

// What reads the rest of a line, by its first word.
const READERS = new Map([
  ['node', readNode],
  ['scope', readScope],
  ['bind', readBinding],
  ['symbol', readSymbol],
  ['redecl', readRedeclaration],
  ['uses', readUses],
  ['pure', readPure],
  ['ref', readReference],
  ['free', readFree],
  ['class', readClass],
  ['element', readElement],
  ['use', readPrivateUse],
  ['label', readUnusedLabel],
  ['stats', readStats],
  ['made', readMade],
  ['diag', readDiagnostic],
]);

function readLine(line, report, wanted) {
  if (wanted !== null && !wanted.has(line.slice(0, line.indexOf(' ')))) {
    return;
  }
  const cursor = new Cursor(line);
  const reader = READERS.get(cursor.word());
  if (reader === undefined) {
    throw new SyntaxError('no such kind of line');
  }
  cursor.expect(' ');
  reader(cursor, report);
  cursor.end();
}

// Adds to a report what the lines of a text tell. Any other line is a fault. With a set of first words, what other lines tell is left out.
function readLines(text, report, wanted) {
  let number = 0;
  let start = 0;
  while (start < text.length) {
    const end = text.indexOf('\n', start);
    const line = text.slice(start, end === -1 ? text.length : end);
    number += 1;
    try {
      if (end === -1) {
        throw new SyntaxError('the line has no end');
      }
      readLine(line, report, wanted);
    } catch (error) {
      throw error instanceof SyntaxError ? new ReportFault(number, line, error.message) : error;
    }
    start = end + 1;
  }
  return report;
}

// The report that this text is.
function parseReport(text, wanted = null) {
  return readLines(text, emptyReport(), wanted);
}

// A list of which one entry alone is read. Its length counts those before it, too, for which there is no room.
class LoneEntry {
  constructor(id) {
    this.length = id;
    this.read = undefined;
  }

  push(made) {
    this.length += 1;
    this.read = made;
  }

  at(id) {
    return id === this.length - 1 ? this.read : undefined;
  }
}

// The entry of this id in a list of a report, of which these lines are.
function parseEntry(text, list, id) {
  const entries = new LoneEntry(id);
  readLines(text, { [list]: entries }, null);
  return entries.read;
}

module.exports = { ReportFault, parseEntry, parseReport };
