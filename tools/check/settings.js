'use strict';
// The settings by which a file is checked: defaults, what a bolgwyr.json says, and what the words of the command say.

const { UsageFault } = require('../bolgwyr/faults.js');
const { RULES, SEVERITIES, defaultRules } = require('./rules.js');
const { environments } = require('./environments.js');

const NAME = /^[\p{ID_Start}$_][\p{ID_Continue}$\u200c\u200d]*$/u;
const KNOWN = new Map([[true, true], [false, true], ['readonly', true], ['readable', true], ['writable', true], ['writeable', true], ['off', false]]);

// What is wrong with a setting; who knows where it stands says so.
class SettingFault extends UsageFault {}

function oneOf(value, known, what) {
  if (!known.includes(value)) {
    throw new SettingFault(`${what} wants one of ${known.join(', ')}`);
  }
  return value;
}

function pattern(value, what) {
  try {
    return new RegExp(value, 'u').source === '' ? '' : value;
  } catch (error) {
    throw new SettingFault(`${what}: ${error.message}`);
  }
}

function truth(value, what) {
  if (typeof value !== 'boolean') {
    throw new SettingFault(`${what} wants true or false`);
  }
  return value;
}

// What reads the value of an option of no-unused.
const OPTIONS = {
  vars: (value, what) => oneOf(value, ['all', 'local'], what),
  args: (value, what) => oneOf(value, ['all', 'after-used', 'none'], what),
  caught: truth,
  ignore: (value, what) => pattern(String(value), what),
};

const isObject = (value) => value !== null && typeof value === 'object' && !Array.isArray(value);

function object(value, what) {
  if (!isObject(value)) {
    throw new SettingFault(`${what} wants an object`);
  }
  return value;
}

function readOptions(name, options, what) {
  return Object.fromEntries(Object.entries(object(options, what)).map(([option, value]) => {
    if (!Object.hasOwn(RULES[name].options, option)) {
      throw new SettingFault(`${what}: there is no option ${option}`);
    }
    return [option, OPTIONS[option](value, `${what}.${option}`)];
  }));
}

// A rule's setting: a severity, options, or a list of both.
function readRule(name, value, what) {
  if (!Object.hasOwn(RULES, name)) {
    throw new SettingFault(`${what}: there is no such rule; there are ${Object.keys(RULES).join(', ')}`);
  }
  const [severity, options = {}, ...more] = Array.isArray(value) ? value : isObject(value) ? ['error', value] : [value];
  if (more.length > 0) {
    throw new SettingFault(`${what} wants a severity and an object of options at most`);
  }
  return { severity: oneOf(severity, SEVERITIES, what), ...readOptions(name, options, what) };
}

function readRules(value, what = 'rules') {
  return Object.fromEntries(Object.entries(object(value, what)).map(([name, rule]) => [name, readRule(name, rule, `${what}.${name}`)]));
}

// Names with how they may be used; `off` makes a name unknown.
function readGlobals(value, what = 'globals') {
  return Object.fromEntries(Object.entries(object(value, what)).map(([name, use]) => {
    if (!NAME.test(name)) {
      throw new SettingFault(`${what}: ${JSON.stringify(name)} is no name`);
    }
    if (!KNOWN.has(use)) {
      throw new SettingFault(`${what}.${name} wants readonly, writable or off`);
    }
    return [name, KNOWN.get(use)];
  }));
}

// A list of environments, or an object that says true or false of each.
function readEnvironments(value, what = 'env') {
  const names = isObject(value) ? Object.keys(value).filter((name) => truth(value[name], `${what}.${name}`)) : value;
  if (!Array.isArray(names)) {
    throw new SettingFault(`${what} wants a list of environments`);
  }
  const known = environments();
  const stranger = names.find((name) => !known.includes(name));
  if (stranger !== undefined) {
    throw new SettingFault(`${what}: there is no environment ${JSON.stringify(stranger)}; there are ${known.join(', ')}`);
  }
  return names;
}

function readIgnore(value, what = 'ignore') {
  if (!Array.isArray(value) || !value.every((entry) => typeof entry === 'string')) {
    throw new SettingFault(`${what} wants a list of patterns`);
  }
  return value;
}

const NOTHING = { rules: {}, globals: {}, env: null, ignore: [], only: null };

function mergedRules(base, more) {
  const names = Object.keys(base);
  return Object.fromEntries(names.map((name) => [name, { ...base[name], ...more[name] }]));
}

function readOnly(names, what = 'only') {
  const stranger = Array.isArray(names) ? names.find((name) => !Object.hasOwn(RULES, name)) : String(names);
  if (stranger !== undefined || names.length === 0) {
    throw new SettingFault(`${what}: there is no rule ${JSON.stringify(stranger ?? '')}; there are ${Object.keys(RULES).join(', ')}`);
  }
  return names;
}

// Of the rules only those named, which are errors where they were off.
function onlyRules(rules, only) {
  return Object.fromEntries(Object.entries(rules).map(([name, rule]) => {
    const isNamed = only.includes(name);
    const severity = isNamed && rule.severity === 'off' ? 'error' : rule.severity;
    return [name, { ...rule, severity: isNamed ? severity : 'off' }];
  }));
}

// The settings of a file: the configuration's, and over them those of the words.
function settingsOf(configured, worded) {
  const rules = mergedRules(mergedRules(defaultRules(), configured.rules), worded.rules);
  return {
    rules: worded.only === null ? rules : onlyRules(rules, worded.only),
    globals: { ...configured.globals, ...worded.globals },
    env: worded.env ?? configured.env,
  };
}

module.exports = { NOTHING, SettingFault, isObject, readEnvironments, readGlobals, readIgnore, readOnly, readRule, readRules, settingsOf };
