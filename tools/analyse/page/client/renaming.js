'use strict';
// A new name for the selected symbol, typed where it stands: what would change shows as a diff, or why it can't be.

const { Positions } = require('../../positions.js');
const { visible } = require('../../visible.js');
const { diffLines } = require('../../../rename/diff.js');
const { foresee } = require('../../../rename/foresee.js');
const { RenameRefusal } = require('../../../rename/refusal.js');
const { Analysed } = require('../../../rename/text-tables.js');
const { unpacked } = require('../tables-data.js');
const { counted, element, paragraph } = require('./elements.js');
const { put } = require('./hint.js');
const { currentTarget } = require('./selection.js');
const { symbolIdOf, symbolOf } = require('./tables.js');

const form = document.getElementById('rename');
const input = form.elements.to;
const answer = document.getElementById('renamed');
const analyses = new Map();
let asked = null;

// The tables of a file are read when the first name in it is to change.
function analysisOf(file) {
  if (!analyses.has(file)) {
    const parts = unpacked(JSON.parse(document.getElementById(`tables-${file}`).textContent));
    analyses.set(file, new Analysed({ ...parts, positions: new Positions(parts.source) }));
  }
  return analyses.get(file);
}

const LOOKS = { '-': 'gone', '+': 'added', '@': 'quiet' };

function diffElement(lines) {
  const made = element('pre', '', { class: 'diff' });
  lines.slice(2).forEach((line) => made.append(element('span', `${visible(line)}\n`, { class: LOOKS[line[0]] || '' })));
  return made;
}

// The words of a shell; what steers one is quoted.
const quoted = (word) => (/^[\w@%+=:,./-]+$/.test(word) ? word : `'${word.replace(/'/g, "'\\''")}'`);

function commandFor(analysis, { symbol }, to) {
  const { line, column } = analysis.positions.placeOf(symbol.span.start);
  return `bolgwyr rename ${quoted(`${analysis.options.filename}:${line}:${column}`)} ${quoted(to)} --write`;
}

function foreseenParts(analysis, { symbol }, to) {
  const { text, changes, warnings } = foresee(analysis, symbol, to);
  if (changes.length === 0) {
    return [paragraph('This is its name.')];
  }
  return [
    paragraph(`${counted(changes.length, 'place')} would change:`),
    diffElement(diffLines(analysis.options.filename, analysis.source, text)),
    ...warnings.map((warning) => paragraph(`Warning: ${warning}`)),
    paragraph('The proved renamer does it: ', element('code', commandFor(analysis, { symbol }, to))),
  ];
}

function refusalParts({ message, line, column, excerpt }) {
  const place = line === null ? '' : ` (${line}:${column})`;
  return [element('p', `Refused: ${message}${place}`, { class: 'refused' }), ...(excerpt.length === 0 ? [] : [element('pre', excerpt.join('\n'))])];
}

function answerParts(to) {
  const analysis = analysisOf(asked.file);
  try {
    return foreseenParts(analysis, { symbol: analysis.report.symbols[asked.symbol] }, to);
  } catch (error) {
    if (!(error instanceof RenameRefusal)) {
      throw error;
    }
    return refusalParts(error);
  }
}

function placeForm() {
  put(form, document.getElementById(asked.id).getBoundingClientRect());
}

function tell() {
  answer.replaceChildren(...(input.value === '' ? [] : answerParts(input.value)));
  placeForm();
}

// Opens at the selected name.
function open() {
  const target = currentTarget();
  const symbol = target === null ? null : symbolIdOf(target);
  if (symbol === null) {
    return;
  }
  asked = { file: target.file, symbol, id: target.id };
  input.value = symbolOf(target.file, symbol).name;
  answer.replaceChildren();
  form.hidden = false;
  placeForm();
  input.focus();
  input.select();
}

function close() {
  if (!form.hidden) {
    form.hidden = true;
    document.getElementById(asked.id).focus({ preventScroll: true });
  }
}

const isOpen = () => !form.hidden;

input.addEventListener('input', tell);
form.addEventListener('submit', (event) => {
  event.preventDefault();
  tell();
});
form.querySelector('[value=close]').addEventListener('click', close);

module.exports = { close, isOpen, open };
