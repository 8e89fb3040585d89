'use strict';
// The visitors of ESTree's nodes, by the class of node that a place takes. Each family of kinds adds its own. A visitor gets
// the conversion, the role and the node.

const visit = {};

// Visits what a field holds: nothing, a node or a list.
function each(c, role, value, name) {
  if (value) eachBy(c, role, value, visit[name]);
}

function eachBy(c, role, value, visitor) {
  if (!Array.isArray(value)) visitor(c, role, value);
  else for (let i = 0; i < value.length; i++) if (value[i]) visitor(c, role, value[i]);
}

// A visitor of a kind whose fields are its roles, in order: `{ role: class }`.
function plain(kind, parts = {}) {
  const fields = Object.keys(parts);
  const names = Object.values(parts);
  const visitors = [];
  return (c, role, node) => {
    c.open(role, kind, node);
    for (let i = 0; i < fields.length; i++) {
      const value = node[fields[i]];
      if (value) eachBy(c, fields[i], value, visitors[i] ??= visit[names[i]]);
    }
    c.close();
  };
}

// A visitor that looks the node's type up.
function byType(table, what) {
  return (c, role, node) => {
    const visitor = table[node.type];
    if (visitor === undefined) c.refuse(node, `${node.type} can't be ${what}`);
    visitor(c, role, node);
  };
}

const NO_MARKS = [];

// The marks whose conditions hold.
function marksOf(conditions) {
  const marks = [];
  for (const mark in conditions) if (conditions[mark]) marks.push(mark);
  return marks;
}

// The same of two marks, for nodes that there are many of.
function marksOfTwo(first, isFirst, second, isSecond) {
  if (!isFirst) return markOf(second, isSecond);
  return isSecond ? [first, second] : [first];
}

// The one mark there is where its condition holds.
function markOf(mark, condition) {
  return condition ? [mark] : NO_MARKS;
}

// Of a call, an element and the like; dialects name them in two ways.
const typeArgumentsOf = (node) => node.typeArguments || node.typeParameters;

module.exports = { visit, each, plain, byType, marksOf, marksOfTwo, markOf, typeArgumentsOf };
