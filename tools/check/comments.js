'use strict';
// What comments ask for: names that are known (`global`, `globals`, `eslint-env`, `exported`), and findings that aren't told
// (`bolgwyr-ignore-line`, `bolgwyr-ignore-next-line`, `bolgwyr-ignore-file`).

const { environments } = require('./environments.js');

// Words of which a text that asks for something has one; most texts have none, and to see that takes less than to try the pattern.
const WORDS = ['global', 'eslint-env', 'exported', 'bolgwyr-ignore-'];
const ASKS = /\b(?:globals?|eslint-env|exported)\s|bolgwyr-ignore-/;
const NAMES = /^\s*(globals?|eslint-env|exported)\s+([^]*)$/;
const IGNORE = /^\s*bolgwyr-ignore-(line|next-line|file)(?=\s|$)([^]*)$/;

// What stands behind `--` is a remark.
function listOf(text) {
  return text.split(/\s--\s/)[0].split(/[\s,]+/).filter((word) => word !== '');
}

// Names with what stands behind a colon: `a, b: writable, c:off`.
function namesIn(text) {
  return listOf(text.replace(/\s*:\s*/g, ':')).map((word) => word.split(':'));
}

const isOff = (value) => value === 'off';

const TAKES = {
  global: (asked, text) => namesIn(text).forEach(([name, value]) => asked.globals.set(name, !isOff(value))),
  exported: (asked, text) => namesIn(text).forEach(([name]) => asked.exported.add(name)),
  'eslint-env': (asked, text) => {
    const known = environments();
    asked.env ??= [];
    asked.env.push(...listOf(text).map((name) => (name === 'es6' ? 'es2015' : name)).filter((name) => known.includes(name)));
  },
};
TAKES.globals = TAKES.global;

// The lines that a comment speaks of: those on which it begins and ends, or the one behind it.
function linesOf(where, positions, [start, end]) {
  const last = positions.placeOf(end).line;
  return where === 'line' ? [positions.placeOf(start).line, last] : [last + 1];
}

// What isn't told somewhere: all rules, or some.
const nothing = () => ({ all: false, rules: new Set() });

function leaveOut(ignored, rules) {
  ignored.all ||= rules.length === 0;
  rules.forEach((rule) => ignored.rules.add(rule));
}

// Notes a place where rules aren't told; no rules are all of them.
function ignore({ file, lines }, [, where, rest], positions, span) {
  const rules = listOf(rest);
  if (where === 'file') {
    leaveOut(file, rules);
    return;
  }
  for (const line of linesOf(where, positions, span)) {
    lines.set(line, lines.get(line) ?? nothing());
    leaveOut(lines.get(line), rules);
  }
}

function readComment(asked, answers, [start, end, kind]) {
  const whole = answers.positions.textOf({ start, end });
  const text = kind === 'block' ? whole.slice(2, -2) : whole.slice(2);
  const names = kind === 'block' ? NAMES.exec(text) : null;
  const ignored = IGNORE.exec(text);
  if (names !== null) {
    TAKES[names[1]](asked, names[2]);
  } else if (ignored !== null) {
    ignore(asked.ignored, ignored, answers.positions, [start, end]);
  }
}

// What the comments of a file ask for.
function askedOf(answers) {
  const asked = { globals: new Map(), exported: new Set(), env: null, ignored: { file: nothing(), lines: new Map() } };
  if (WORDS.some((word) => answers.text.includes(word)) && ASKS.test(answers.text)) {
    for (const comment of answers.tree.head.comments) {
      readComment(asked, answers, comment);
    }
  }
  return asked;
}

function isIgnored({ file, lines }, { rule, line }) {
  return [file, lines.get(line)].some((ignored) => ignored !== undefined && (ignored.all || ignored.rules.has(rule)));
}

module.exports = { askedOf, isIgnored };
