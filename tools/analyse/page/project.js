'use strict';
// The modules that entries reach as one page: a file for each, with imports tied to what they import, and the graph of them all.

const { Refusal } = require('../refusal.js');
const { Configs } = require('../../check/config.js');
const { withProject } = require('../../check/project.js');
const { RunFault } = require('../../bolgwyr/faults.js');
const { graphOf } = require('../../link/graph.js');
const { linkSet } = require('../../link/index.js');
const { isSource } = require('../../link/kinds.js');
const { analysedText } = require('./analysed-file.js');
const { declarationId, prefixOf } = require('./ids.js');
const { modelOf, placed } = require('./model.js');

// An entry that no parser reads has no page, as a file alone hasn't.
function refusalOf({ shown, positions, refusal: { message, index } }) {
  const place = index === null ? {} : positions.placeAt(index);
  return Object.assign(new Refusal(message, place), { file: shown });
}

function refuseFaults({ faults, entries }) {
  if (faults.length > 0) {
    throw new RunFault(faults.map(({ entry, message }) => `${entry}: ${message}`).join('; '));
  }
  const refused = entries.find(({ refusal }) => refusal !== null);
  if (refused !== undefined) {
    throw refusalOf(refused);
  }
}

// The modules that the page shows: those of packages, and those that no parser reads, stand in the picture alone.
function shownModules({ modules, entries }) {
  const readable = modules.filter((module) => module.text !== null && module.refusal === null && isSource(module.file));
  return readable.filter((module) => !module.isPackaged || entries.includes(module));
}

function analysedModule(module, configs) {
  const goal = module.kind === 'module' ? 'module' : undefined;
  try {
    return { module, ...analysedText(module.text, { file: module.shown, goal, configs }) };
  } catch (error) {
    if (!(error instanceof Refusal)) {
      throw error;
    }
    throw Object.assign(error, { file: module.shown });
  }
}

// What linking found, among the findings of each file.
function withLinkFindings(files, { set, findings }) {
  const jobs = files.map(({ module, settings }) => ({ file: module.file, name: module.shown, settings }));
  const results = files.map(({ module, findings: own }) => ({ file: module.file, findings: own }));
  const project = { modules: set.modules, entries: new Set(set.entries), faults: set.faults, findings };
  const all = withProject(results, jobs, project, () => null);
  return files.map((file, place) => ({ ...file, findings: all[place].findings }));
}

// The names that an outline's symbols have, by their numbers.
function outlineNames({ rows }) {
  return [...new Set(rows.filter(([, , kind]) => kind === 'BindingIdentifier').map(([, , , name]) => name))];
}

const topSymbol = ({ symbols }, name) => symbols.find((symbol) => symbol.name === name && symbol.scope === 0);

// The element that an import leads to in a file of the page, or null.
function targetOf({ word, module, symbol }, models) {
  const model = models.get(module);
  if (model === undefined) {
    return null;
  }
  const found = symbol === null ? undefined : topSymbol(model, outlineNames(module.outline)[symbol]);
  if (found !== undefined) {
    return declarationId(model.number, found.id, 0);
  }
  return word === 'default' && model.defaultExport !== null ? `${prefixOf(model.number)}default` : `file-${model.number}`;
}

function tieImport({ module, wanted, outcome }, models) {
  const model = models.get(module);
  const symbol = model === undefined ? undefined : topSymbol(model, wanted.local);
  if (symbol !== undefined) {
    const { to, text } = wanted.specifier;
    const from = to.module === undefined ? text : to.module.shown;
    const end = outcome.module === null ? null : outcome.module.shown;
    model.imports.push({ symbol: symbol.id, name: wanted.name, from, end, target: targetOf(outcome, models) });
  }
}

// The texts in a module by which it names others of the page.
function tieSpecifiers({ module }, models) {
  const model = models.get(module);
  const leading = module.specifiers.filter(({ to }) => models.has(to?.module));
  model.specifiers = leading.map(({ span, to }) => ({ span: placed(model.positions, span), file: models.get(to.module).number }));
}

function noteDefault({ module }, models) {
  const entry = module.outline === null ? undefined : module.outline.exports.get('default');
  if (entry !== undefined) {
    const model = models.get(module);
    model.defaultExport = placed(model.positions, entry.span);
  }
}

function graphFor(set, models) {
  const numbers = new Map([...models].map(([module, { number }]) => [module.shown, number]));
  const entries = new Set(set.entries.map(({ shown }) => shown));
  const { nodes, edges } = graphOf(set);
  return { nodes: nodes.map((node) => ({ ...node, file: numbers.get(node.name) ?? null, isEntry: entries.has(node.name) })), edges };
}

// `{ models, graph }` of what the entries reach.
function projectModels(entries) {
  const linked = linkSet(entries);
  refuseFaults(linked.set);
  const configs = new Configs();
  const analysed = shownModules(linked.set).map((module) => analysedModule(module, configs));
  const files = withLinkFindings(analysed, linked);
  const models = new Map(files.map((file, number) => [file.module, modelOf({ ...file, number })]));
  files.forEach((file) => noteDefault(file, models));
  files.forEach((file) => tieSpecifiers(file, models));
  linked.outcomes.imports.forEach((one) => tieImport(one, models));
  return { models: [...models.values()], graph: graphFor(linked.set, models) };
}

module.exports = { projectModels };
