'use strict';
// The parts of the judgement; each gives whether all was as it should be.

const fs = require('fs');
const os = require('os');
const path = require('path');
const { spawnSync } = require('child_process');
const { linkSet } = require('../link/index.js');
const { randomOf } = require('./random.js');
const { FIXED, projectOf } = require('./projects.js');
const { faultsOf } = require('./standard.js');
const { placesOf, spoil } = require('./spoil.js');
const { compareOutlines } = require('./outlines.js');

// Modules that Debian installs.
const PACKAGES = ['lodash-es/lodash.js', 'terser/main.js', 'acorn/dist/acorn.mjs', 'globby/index.js', 'commander/esm.mjs', 'magic-string']
  .map((name) => path.join('/usr/share/nodejs', name))
  .filter((file) => fs.existsSync(file));

const lineOf = ({ module, span, message }) => {
  const { line, column } = module.positions.placeOf(span.start);
  return `${module.shown}:${line}:${column}: ${message}`;
};

function clean() {
  return PACKAGES.map((entry) => {
    const { set, outcomes, findings } = linkSet([entry]);
    console.log(`clean ${entry}: ${set.modules.length} modules, ${outcomes.imports.length} imports, ${findings.length} findings`);
    findings.forEach((finding) => console.log(lineOf(finding)));
    return findings.length === 0;
  }).every(Boolean);
}

function outlines() {
  return PACKAGES.map((entry) => {
    const { imports, differing } = compareOutlines(entry);
    console.log(`outlines ${entry}: ${imports} imports, ${differing} differ`);
    return differing === 0;
  }).every(Boolean);
}

function withCopy(folder, run) {
  const copy = fs.mkdtempSync(path.join(fs.realpathSync(os.tmpdir()), 'judge-link-'));
  try {
    fs.cpSync(folder, copy, { recursive: true, dereference: true });
    return run(copy);
  } finally {
    fs.rmSync(copy, { recursive: true, force: true });
  }
}

// Spoils so many places of a copy, and compares what is told with where they are.
function spoiledCopy(folder, entries, random, count) {
  return withCopy(folder, (copy) => {
    const files = entries(copy);
    const before = linkSet(files, { cwd: copy });
    const wanted = spoil(random.some(placesOf(before), count));
    const after = linkSet(files, { cwd: copy });
    const places = new Set(wanted);
    const placeOf = ({ module, span }) => lineOf({ module, span, message: '' });
    const told = new Set(after.findings.map(placeOf));
    const lost = wanted.filter((place) => !told.has(place));
    // An import of a name that is passed on by a spoiled export leads nowhere, too.
    const isCaused = ({ related }) => related.some((one) => places.has(placeOf(one)));
    const more = after.findings.filter((finding) => !places.has(placeOf(finding)) && !isCaused(finding)).map(placeOf);
    console.log(`spoiled ${folder}: ${wanted.length} places, ${wanted.length - lost.length} told, ${more.length} others told`);
    [...lost.map((place) => `lost ${place}`), ...more.map((place) => `more ${place}`)].forEach((line) => console.log(line));
    return { lost, more };
  });
}

const scripts = (folder) => fs.readdirSync(folder, { recursive: true }).filter((name) => name.endsWith('.js')).sort();

const SPOILED = [
  ['/usr/share/nodejs/lodash-es', (copy) => scripts(copy)],
  ['/usr/share/nodejs/terser', (copy) => ['main.js', ...scripts(path.join(copy, 'lib')).map((name) => `lib/${name}`)]],
];

function spoiled({ seed, count = 120 }) {
  const random = randomOf(seed);
  const folders = SPOILED.filter(([folder]) => fs.existsSync(folder));
  return folders.map(([folder, entries]) => {
    const { lost, more } = spoiledCopy(folder, entries, random, Math.ceil(count / folders.length));
    return lost.length === 0 && more.length === 0;
  }).every(Boolean);
}

// Runs with an empty folder whose files are modules.
function withFolder(run) {
  const folder = fs.mkdtempSync(path.join(fs.realpathSync(os.tmpdir()), 'judge-link-'));
  try {
    fs.writeFileSync(path.join(folder, 'package.json'), '{"type":"module"}');
    return run(folder);
  } finally {
    fs.rmSync(folder, { recursive: true, force: true });
  }
}

// What Node says of the projects.
function nodeAnswers(projects) {
  const program = path.join(__dirname, 'node-errors.js');
  const options = (folder) => ({ input: JSON.stringify({ folder, projects }), encoding: 'utf8', maxBuffer: Infinity });
  const run = withFolder((folder) => spawnSync(process.execPath, [program], options(folder)));
  if (run.status !== 0) {
    throw new Error(run.stderr);
  }
  return JSON.parse(run.stdout);
}

// Findings, and the lines of imports and exports that lead to a namespace.
function ownAnswer(project, folder) {
  Object.entries(project).forEach(([name, text]) => fs.writeFileSync(path.join(folder, name), text));
  const { findings, outcomes } = linkSet([Object.keys(project)[0]], { cwd: folder });
  const placed = ({ module, span }) => ({ file: module.shown, line: module.positions.placeOf(span.start).line });
  const led = [
    ...outcomes.imports.map(({ module, wanted, outcome }) => ({ module, span: wanted.span, outcome })),
    ...outcomes.exports.map(({ module, entry, outcome }) => ({ module, span: entry.span, outcome })),
  ];
  return {
    findings: findings.map((finding) => ({ ...placed(finding), rule: finding.rule, name: /^'(.*?)'/.exec(finding.message)?.[1] })),
    namespaces: led.filter(({ outcome }) => outcome.word === 'namespace').map(placed).map(lineAt),
  };
}

const ownAnswers = (projects) => withFolder((folder) => projects.map((project) => ownAnswer(project, folder)));

const lineAt = ({ file, line }) => `${file}:${line}`;
const namedBy = (error) => /name(?:d)? '(.*?)'/.exec(error.message)[1];
const isAmbiguous = ({ message }) => /conflicting star exports/.test(message);

// Where Node differs from the Standard or tells another place, by name:
//   star   an ambiguous name is told where it is imported; Node tells it at the `export *` that meets both
//   cycle  a name has a ring and another way out; Node says that it found a ring, the Standard goes the other way
//   namespace  of a namespace that several modules import and export each is ambiguous with the others, here they are one
const DIFFERENCES = {
  namespace: (error, { namespaces }) => isAmbiguous(error) && namespaces.includes(lineAt(error)),
  star: (error, { project, own }) => isAmbiguous(error) && project[error.file].split('\n')[error.line - 1].startsWith('export * from')
    && own.some(({ rule, name }) => rule === 'ambiguous-export' && name === namedBy(error)),
  cycle: (error, { standard }) => /Detected cycle/.test(error.message) && !standard.includes(lineAt(error)),
};

const differenceOf = (error, compared) => Object.keys(DIFFERENCES).find((name) => DIFFERENCES[name](error, compared));

// What Node tells and we don't, and the other way round where Node got to the end.
function compareNode({ own, theirs, ...others }) {
  const lines = own.map(lineAt);
  const lost = theirs.errors.filter((error) => !lines.includes(lineAt(error)));
  const accounted = lost.map((error) => differenceOf(error, { own, ...others }));
  const told = theirs.errors.map(lineAt);
  return {
    lost: lost.filter((_, place) => accounted[place] === undefined),
    accounted: accounted.filter((name) => name !== undefined),
    more: theirs.isWhole ? lines.filter((line) => !told.includes(line)) : [],
  };
}

// The same for the Standard's algorithm. An import that is exported is told once, at the import.
function compareStandard({ own, namespaces, standard, project }) {
  const lines = own.map(lineAt);
  const isExportOfImport = (line) => {
    const [file, number] = line.split(':');
    return /^export \{ \w+ as \w+ \};$/.test(project[file].split('\n')[number - 1]) && lines.includes(`${file}:${number - 1}`);
  };
  return {
    lost: standard.filter((line) => !lines.includes(line) && !isExportOfImport(line) && !namespaces.includes(line)),
    accounted: standard.filter((line) => namespaces.includes(line)),
    more: lines.filter((line) => !standard.includes(line)),
  };
}

function tellNode(all) {
  const errors = all.flatMap(({ theirs }) => theirs.errors);
  const KINDS = [/does not provide/, /conflicting star/, /Detected cycle/];
  const kinds = KINDS.map((kind) => errors.filter(({ message }) => kind.test(message)).length);
  const accounted = all.flatMap(({ byNode }) => byNode.accounted);
  const sums = Object.keys(DIFFERENCES).map((name) => `${accounted.filter((one) => one === name).length} ${name}`);
  const whole = all.filter(({ theirs }) => theirs.isWhole).length;
  const told = `${kinds[0]} missing, ${kinds[1]} ambiguous, ${kinds[2]} rings`;
  console.log(`node: ${errors.length} errors of Node: ${told}; ${whole} projects to the end`);
  console.log(`node: accounted for by name: ${sums.join(', ')}`);
  const counts = [({ standard }) => standard, ({ own }) => own, ({ byStandard }) => byStandard.accounted].map((part) => all.flatMap(part).length);
  console.log(`node: the Standard's algorithm tells ${counts[0]} lines, bolgwyr ${counts[1]}; accounted for by name: ${counts[2]} namespace`);
}

const isDiffering = ({ lost, more }) => lost.length + more.length > 0;

function node({ seed, count = 200 }) {
  const random = randomOf(seed);
  const projects = [...FIXED, ...Array.from({ length: count }, () => projectOf(random))];
  const [owns, theirs] = [ownAnswers(projects), nodeAnswers(projects)];
  const all = projects.map((project, place) => {
    const one = { project, own: owns[place].findings, namespaces: owns[place].namespaces, theirs: theirs[place], standard: faultsOf(project) };
    return { ...one, byNode: compareNode(one), byStandard: compareStandard(one) };
  });
  const differing = all.filter(({ byNode, byStandard }) => isDiffering(byNode) || isDiffering(byStandard));
  tellNode(all);
  console.log(`node: ${projects.length} projects, ${differing.length} differ`);
  differing.slice(0, 3).forEach(({ project, byNode, byStandard }) => console.log(JSON.stringify({ project, byNode, byStandard }, null, 1)));
  return differing.length === 0;
}

module.exports = { PARTS: { clean, outlines, spoiled, node } };
