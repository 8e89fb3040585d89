'use strict';
// What bolgwyr check does with its words.

const os = require('os');
const { printable } = require('../analyse/refusal.js');
const { say, tell } = require('../analyse/output.js');
const { hasColour } = require('../bolgwyr/colour.js');
const { nameOf } = require('../bolgwyr/commands/sources.js');
const { STATUS, UsageFault } = require('../bolgwyr/faults.js');
const { Cache, NO_CACHE, cacheFolder } = require('./cache.js');
const { Configs } = require('./config.js');
const { formatOf } = require('./formats/index.js');
const { sumOf } = require('./formats/sum.js');
const { Progress } = require('./progress.js');
const { checkFiles } = require('./run.js');
const { NOTHING, SettingFault, readEnvironments, readGlobals, readOnly, readRule, settingsOf } = require('./settings.js');
const { sourcesOf } = require('./sources.js');
const { stamp } = require('./stamp.js');

// A process that a signal ends has this status and the signal's number.
const SIGNALS = 128;

const listOf = (text) => text.split(',').map((word) => word.trim()).filter((word) => word !== '');

function readSeverity(text) {
  try {
    return /^[[{]/.test(text) ? JSON.parse(text) : text;
  } catch (error) {
    throw new SettingFault(`${text}: ${error.message}`);
  }
}

// `RULE=SEVERITY`; a rule alone is an error.
function wordedRule(word) {
  const [name, ...rest] = word.split('=');
  return [name, readRule(name, rest.length === 0 ? 'error' : readSeverity(rest.join('=')), `--rule ${name}`)];
}

// `NAME` or `NAME:off`.
function wordedGlobals(words) {
  const entries = words.flatMap(listOf).map((word) => word.split(':')).map(([name, use = 'readonly']) => [name, use]);
  return readGlobals(Object.fromEntries(entries), '--global');
}

// What the words set, in the form of a configuration.
function worded(options) {
  return {
    ...NOTHING,
    rules: Object.fromEntries((options.rule ?? []).map(wordedRule)),
    only: options.only === undefined ? null : readOnly(listOf(options.only), '--only'),
    env: options.env === undefined ? null : readEnvironments(listOf(options.env), '--env'),
    globals: wordedGlobals(options.global ?? []),
  };
}

function mostWarnings(text) {
  if (text === undefined) {
    return Infinity;
  }
  if (!/^\d{1,9}$/.test(text)) {
    throw new UsageFault('--max-warnings wants a number from 0');
  }
  return Number(text);
}

// The settings of files by their configuration, each made once.
function settingsMaker({ parser, goal, ...options }) {
  const fromWords = worded(options);
  const made = new Map();
  return (config) => {
    if (!made.has(config)) {
      made.set(config, { ...settingsOf(config, fromWords), parser, goal });
    }
    return made.get(config);
  };
}

// What makes of a file the job to check it, or null where its configuration leaves it out. What is named is checked all the same.
function jobMaker(options) {
  const configs = new Configs(options.config);
  const settingsFor = settingsMaker(options);
  return ({ file, isNamed, size }) => {
    const name = nameOf(file, options);
    const config = configs.of(name);
    return isNamed || !config.ignores(name) ? { file, name, size, settings: settingsFor(config) } : null;
  };
}

// The files to check: those of the words, else those of the project or of this folder.
function filesOf(words, project) {
  return words.length === 0 && project !== null ? require('./project.js').filesOfProject(project) : sourcesOf(words.length === 0 ? ['.'] : words);
}

// Only errors, where warnings aren't to be told.
function quietened(results) {
  return results.map((result) => ({ ...result, findings: result.findings.filter(({ severity }) => severity === 'error') }));
}

function statusOf({ failed, errors, warnings }, most) {
  if (failed > 0) {
    return STATUS.FAILED;
  }
  return errors > 0 || warnings > most ? STATUS.FOUND : STATUS.CLEAN;
}

function cacheOf(options) {
  return options.cache === false ? NO_CACHE : new Cache(options.cacheFolder ?? cacheFolder('.'), stamp());
}

async function resultsOf(jobs, options) {
  const progress = new Progress(jobs.length);
  const cache = cacheOf(options);
  const results = await checkFiles(jobs, cache, () => progress.step()).finally(() => progress.end());
  cache.save();
  return results.map((result, place) => ({ ...result, file: jobs[place].name }));
}

// The results of the files, and of the project where there is one.
async function allResults(words, options) {
  const jobOf = jobMaker(options);
  const project = options.project === undefined ? null : require('./project.js').readProject(options.project);
  const jobs = filesOf(words, project).map(jobOf).filter((job) => job !== null);
  const results = await resultsOf(jobs, options);
  return project === null ? results : require('./project.js').withProject(results, jobs, project, jobOf);
}

function tellFailures(results) {
  for (const { file, failure } of results.filter((result) => result.failure !== undefined)) {
    tell(`${printable(file)}: ${failure}`);
  }
}

// Ends in the midst of a run; what it has made goes with it.
function endOnSignals() {
  for (const name of ['SIGINT', 'SIGTERM', 'SIGHUP']) {
    process.once(name, () => process.exit(SIGNALS + os.constants.signals[name]));
  }
}

async function run(words, options) {
  endOnSignals();
  const most = mostWarnings(options.maxWarnings);
  const results = await allResults(words, options);
  tellFailures(results);
  say(formatOf(options.format)(options.quiet ? quietened(results) : results, { colour: hasColour(process.stdout, options) }));
  process.exitCode = statusOf(sumOf(results), most);
}

module.exports = { run };
