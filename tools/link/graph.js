'use strict';
// The graph of the modules of a set: who imports which names from whom.

// What a specifier of each way is called where no name stands for it.
const WAYS = { dynamic: 'import()', require: 'require()', augment: 'declare module' };

function endOf({ to, text }) {
  if (to.module !== undefined) {
    return { name: to.module.shown, isExternal: !to.module.isLinked };
  }
  return { name: to.external || text, isExternal: true };
}

// The names that a module takes by each of its specifiers.
function namesBySpecifier(module) {
  const names = new Map(module.specifiers.map((specifier) => [specifier, [WAYS[specifier.way]].filter(Boolean)]));
  if (module.kind !== 'module') {
    return names;
  }
  for (const { specifier, name, local } of module.outline.imports) {
    names.get(specifier).push(name === null ? `* as ${local}` : name);
  }
  for (const entry of module.outline.exports.values()) {
    if (entry.specifier !== null) {
      names.get(entry.specifier).push(entry.what === 'collected' ? `* as ${entry.name}` : entry.local);
    }
  }
  module.outline.stars.forEach(({ specifier }) => names.get(specifier).push('*'));
  return names;
}

// {nodes: [{name, isExternal}], edges: [{from, to, names, isExternal}]}, each pair of modules once.
function graphOf({ modules }) {
  const nodes = new Map(modules.map((module) => [module.shown, { name: module.shown, isExternal: !module.isLinked }]));
  const edges = [];
  for (const module of modules) {
    const own = new Map();
    for (const [specifier, names] of namesBySpecifier(module)) {
      const { name, isExternal } = endOf(specifier);
      if (!nodes.has(name)) {
        nodes.set(name, { name, isExternal });
      }
      if (!own.has(name)) {
        own.set(name, { from: module.shown, to: name, names: new Set(), isExternal });
      }
      names.forEach((one) => own.get(name).names.add(one));
    }
    own.forEach((edge) => edges.push({ ...edge, names: [...edge.names] }));
  }
  return { nodes: [...nodes.values()], edges };
}

// Of many names the first few.
const MOST_NAMES = 8;

function label(names) {
  const more = names.length > MOST_NAMES ? `, .. ${names.length - MOST_NAMES} more` : '';
  return names.slice(0, MOST_NAMES).join(', ') + more;
}

const quoted = (text) => `"${text.replace(/[\\"]/g, '\\$&').replace(/\s/g, ' ')}"`;

function dot({ nodes, edges }) {
  return [
    'digraph modules {',
    '  rankdir=LR;',
    '  node [shape=box];',
    ...nodes.map(({ name, isExternal }) => `  ${quoted(name)}${isExternal ? ' [style=dashed]' : ''};`),
    ...edges.map(({ from, to, names, isExternal }) => {
      const style = isExternal ? ', style=dashed' : '';
      return `  ${quoted(from)} -> ${quoted(to)} [label=${quoted(label(names))}${style}];`;
    }),
    '}',
  ];
}

// Characters that steer mermaid stand as their numbers.
const escaped = (text) => `"${text.replace(/[^\w ./@,:()*$-]/g, (sign) => `#${sign.codePointAt(0)};`)}"`;

function mermaid({ nodes, edges }) {
  const numbers = new Map(nodes.map(({ name }, place) => [name, `n${place}`]));
  return [
    'graph LR',
    ...nodes.map(({ name, isExternal }) => `  ${numbers.get(name)}[${escaped(name)}]${isExternal ? ':::external' : ''}`),
    ...edges.map(({ from, to, names, isExternal }) => {
      const said = names.length === 0 ? '' : `|${escaped(label(names))}|`;
      return `  ${numbers.get(from)} ${isExternal ? '-.->' : '-->'}${said} ${numbers.get(to)}`;
    }),
    '  classDef external stroke-dasharray: 4',
  ];
}

const json = ({ nodes, edges }) => [JSON.stringify({
  modules: nodes.map(({ name, isExternal }) => ({ name, external: isExternal })),
  imports: edges.map(({ from, to, names, isExternal }) => ({ from, to, names, external: isExternal })),
})];

const GRAPHS = { dot, mermaid, json };

module.exports = { GRAPHS, graphOf };
