'use strict';
// A program with fresh names for all its variables, as crates/language_ties has them: one name for variables that a program
// itself ties to one another, as those of a function in a block.

const { environmentsAt, meaning } = require('./language');

// Sets of keys that grow together.
function classes() {
  const leads = new Map();
  const find = (key) => {
    if (!leads.has(key)) leads.set(key, key);
    const next = leads.get(key);
    if (next === key) return key;
    const last = find(next);
    leads.set(key, last);
    return last;
  };
  return { find, unite: (left, right) => leads.set(find(left), find(right)) };
}

const keyOf = ({ kind, opener }, name) => `${kind} ${opener} ${name}`;

// The variable that a `var` with an initializer, or in the head of a loop, writes to: what its name means there (14.3.2.1).
function writtenBy(one, { nodes, all }) {
  if (one.sort !== 'Var') return null;
  return meaning(all, environmentsAt(nodes[one.identifier]), one.name);
}

// A variable of a body begins as the parameter of its name (10.2.11, step 28).
function parameterOf(one, all) {
  if (one.environment.kind !== 'Body') return null;
  const is = (other) => other.sort === 'Parameter' && other.name === one.name && other.environment.opener === one.environment.opener;
  return all.find(is) || null;
}

// The names that have to stay: those that an object or a function itself may bind.
function fixedNames(told) {
  const { all, references } = told;
  const fixed = new Set(['arguments']);
  for (const { name, meaning: means } of references) if (means !== null && means.identifiers === null) fixed.add(name);
  for (const one of all) {
    const written = writtenBy(one, told);
    if (written !== null && written.identifiers === null) fixed.add(one.name);
  }
  return fixed;
}

// The variables of all identifiers: a number for each set of variables that are tied.
function variablesOf(told) {
  const { all, references } = told;
  const { find, unite } = classes();
  for (const one of all) {
    const own = keyOf(one.environment, one.name);
    for (const other of one.also) unite(own, keyOf(other, one.name));
    const written = writtenBy(one, told);
    if (written !== null) unite(own, keyOf(written.environment, one.name));
    const parameter = parameterOf(one, all);
    if (parameter !== null) unite(own, keyOf(parameter.environment, one.name));
  }
  const variables = new Map();
  for (const one of all) variables.set(one.identifier, find(keyOf(one.environment, one.name)));
  for (const { node, name, meaning: means } of references) if (means !== null) variables.set(node, find(keyOf(means.environment, name)));
  return variables;
}

// The source with a fresh name for each variable whose name needn't stay. The source is ASCII.
function withFreshNames(source, told) {
  const fixed = fixedNames(told);
  const variables = variablesOf(told);
  const numbers = new Map();
  const nameOf = (variable) => {
    if (!numbers.has(variable)) numbers.set(variable, numbers.size);
    return `q${numbers.get(variable)}_`;
  };
  const edits = [...variables].map(([id, variable]) => ({ node: told.nodes[id], variable })).filter(({ node }) => !fixed.has(node.text));
  edits.sort((left, right) => right.node.span[0] - left.node.span[0]);
  return edits.reduce((text, { node: { span }, variable }) => text.slice(0, span[0]) + nameOf(variable) + text.slice(span[1]), source);
}

module.exports = { withFreshNames };
