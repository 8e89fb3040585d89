'use strict';
// The visitors of the nodes of TypeScript's compiler, by the class of node that a place takes. Each family of kinds adds its
// own. A visitor gets the conversion, the role and the node.

const visit = {};

// Visits what a field holds: nothing, a node or a list.
function each(c, role, value, name) {
  if (Array.isArray(value)) {
    for (const node of value) visit[name](c, role, node);
  } else if (value) {
    visit[name](c, role, value);
  }
}

// A visitor of a kind whose children are these, in order: `[role, field, class]`.
function plain(kind, ...parts) {
  return (c, role, node) => {
    c.open(role, kind, node);
    for (const [role, field, name] of parts) each(c, role, node[field], name);
    c.close();
  };
}

// A visitor that looks the node's kind up. The table names kinds as the compiler does; one that it doesn't have is left out.
function byKind(table, what) {
  let visitors;
  return (c, role, node, more) => {
    if (visitors === undefined) {
      visitors = new Map(Object.entries(table).map(([name, visitor]) => [c.kinds[name], visitor]));
    }
    const visitor = visitors.get(node.kind);
    if (visitor === undefined) c.refuse(node, `${c.kindName(node)} can't be ${what}`);
    visitor(c, role, node, more);
  };
}

// The marks whose conditions hold.
function marksOf(conditions) {
  const marks = [];
  for (const mark in conditions) if (conditions[mark]) marks.push(mark);
  return marks;
}

module.exports = { visit, each, plain, byKind, marksOf };
