'use strict';
// The rules: what each is for, what it is by default, and which programs tell what it goes by.

const SEVERITIES = ['off', 'warn', 'error'];

// Options of no-unused. `vars`: `all`, or `local`, which leaves out what a script declares at its top. `args`: `all`,
// `after-used` (none that stands before one that is used) or `none`. `caught`: whether parameters of `catch` are told.
// `ignore`: names that match aren't told.
const UNUSED = { vars: 'all', args: 'after-used', caught: false, ignore: '^_' };

// Told of a project alone, by linking it.
const UNRESOLVED = 'unresolved-import';

const RULES = {
  'no-unused': { about: 'names that nothing in use uses', programs: ['name_lint', 'report'], options: UNUSED },
  'no-undeclared': { about: 'names that nobody declares', programs: ['name_lint', 'report'], options: {} },
  'no-redeclare': { about: 'names that are declared again where the language allows it', programs: ['report'], options: {} },
  'early-error': { about: 'what the language forbids before a program runs', programs: ['report'], options: {} },
  'unused-label': { about: 'labels that no jump names', programs: ['report'], options: {} },
  [UNRESOLVED]: { about: 'imports that lead nowhere', programs: [], options: {} },
};

// What is told of a file that no parser reads. It can't be turned off.
const SYNTAX = 'syntax';

// The rules as they are where nobody says otherwise: all are errors.
function defaultRules() {
  return Object.fromEntries(Object.entries(RULES).map(([name, { options }]) => [name, { severity: 'error', ...options }]));
}

const isOn = (rule) => rule !== undefined && rule.severity !== 'off';

// The programs that any rule goes by.
const PROGRAMS = [...new Set(Object.values(RULES).flatMap(({ programs }) => programs))];

function programsOf(rules) {
  const wanted = Object.keys(RULES).filter((name) => isOn(rules[name])).flatMap((name) => RULES[name].programs);
  return [...new Set(wanted)];
}

const programs = new WeakMap(); // by rules: many files have the same

// The programs that rules need, by their names in tools/programs.
function programsFor(rules) {
  if (!programs.has(rules)) {
    programs.set(rules, programsOf(rules));
  }
  return programs.get(rules);
}

module.exports = { PROGRAMS, RULES, SEVERITIES, SYNTAX, UNRESOLVED, defaultRules, isOn, programsFor };
