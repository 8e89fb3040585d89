'use strict';
// The symbol that a person means: by a place in the source, or by its name where just one has it.

const { nameEnd } = require('../source-to-tree/trivia.js');
const { END, KIND, ROLE, START, TEXT } = require('../edits/rows.js');
const { RenameRefusal } = require('./refusal.js');

// The place in the string of a line and a column, both from 1; a column counts characters.
function indexOfPlace(positions, { line, column }) {
  if (line > positions.lines) {
    throw new RenameRefusal(`there is no line ${line}: the last one is ${positions.lines}`);
  }
  const start = positions.lineStarts[line - 1];
  const text = positions.text.slice(start, Math.max(start, positions.lineEnd(line - 1)));
  const characters = [...text];
  if (column > characters.length) {
    throw new RenameRefusal(`line ${line} has no column ${column}: it has ${characters.length} characters`);
  }
  return start + characters.slice(0, column - 1).join('').length;
}

// What stands at a place that names no variable.
const OTHERS = {
  IdentifierName: (name) => `\`${name}\` is a name of a property or module here, no variable's`,
  PrivateIdentifier: (name) => `\`#${name}\` is a private name, no variable's`,
  LabelIdentifier: (name) => `\`${name}\` is a label, no variable's name`,
  JSXIdentifier: (name) => `\`${name}\` is a name of JSX here, no variable's`,
  TSIndexSignatureName: (name) => `\`${name}\` only tells what an index is, and nothing uses it`,
};

const VARIABLES = new Set(['BindingIdentifier', 'IdentifierReference']);

// The rows of names that hold a byte: a variable's, and another's, or -1.
function namesAt(analysis, byte) {
  const { rows } = analysis;
  let variable = -1;
  let other = -1;
  rows.forEach((row, node) => {
    if (byte < row[START] || byte >= row[END]) {
      return;
    }
    if (VARIABLES.has(row[KIND])) {
      variable = node;
    } else if (OTHERS[row[KIND]] !== undefined || row[ROLE] === 'id') {
      other = node;
    }
  });
  return { variable, other };
}

// The span of the name that begins where a row does.
function nameSpan(analysis, node) {
  const start = analysis.rows[node][START];
  const { text } = analysis.positions;
  const index = analysis.positions.indexOf(start);
  return { start, end: start + Buffer.byteLength(text.slice(index, nameEnd(text, index)), 'utf8') };
}

function symbolAtPlace(analysis, place) {
  const index = indexOfPlace(analysis.positions, place);
  const byte = Buffer.byteLength(analysis.source.slice(0, index), 'utf8');
  const { variable, other } = namesAt(analysis, byte);
  if (variable < 0) {
    const symbol = other < 0 ? null : analysis.symbolOf(other);
    if (symbol !== null) {
      return symbol;
    }
    const say = other < 0 ? undefined : OTHERS[analysis.rows[other][KIND]];
    const message = say === undefined ? 'no name stands here' : say(analysis.rows[other][TEXT]);
    throw new RenameRefusal(message, say === undefined ? { start: byte, end: byte } : nameSpan(analysis, other));
  }
  const symbol = analysis.symbolOf(variable);
  if (symbol === null) {
    throw new RenameRefusal(`\`${analysis.rows[variable][TEXT]}\` isn't declared in this file`, nameSpan(analysis, variable));
  }
  return symbol;
}

function symbolOfName(analysis, name) {
  const named = analysis.report.symbols.filter((symbol) => symbol.name === name);
  if (named.length === 1) {
    return named[0];
  }
  if (named.length === 0) {
    throw new RenameRefusal(`nothing of the name \`${name}\` is declared in this file`);
  }
  const places = named.map((symbol) => analysis.placeOfSpan(symbol.span)).join(', ');
  throw new RenameRefusal(`\`${name}\` is declared more than once: name one of the places ${places}`);
}

// `place` has `line` and `column`, or `name`.
function symbolAt(analysis, place) {
  return place.name === undefined ? symbolAtPlace(analysis, place) : symbolOfName(analysis, place.name);
}

module.exports = { nameSpan, symbolAt };
