'use strict';
// Scopes as boxes round lines. Boxes nest, so of two neighbours that share a line the later one has it. A scope that gets
// no line of its own is shown inside its line.

// The scopes inside each scope, in order.
function childrenOf(scopes) {
  const children = scopes.map(() => []);
  for (const scope of scopes) {
    if (scope.parent !== null) {
      children[scope.parent].push(scope);
    }
  }
  for (const list of children) {
    list.sort((left, right) => left.span.start - right.span.start || left.id - right.id);
  }
  return children;
}

// The boxes directly inside a range of lines, from scopes in order. The others go to `inline`.
function boxesInside(scopes, range, inline) {
  const boxes = [];
  for (const scope of scopes) {
    const box = { scope, first: Math.max(scope.span.line, range.first), last: Math.min(scope.lastLine, range.last) };
    const before = boxes[boxes.length - 1];
    const room = before === undefined || before.first < box.first;
    if (scope.span.line === scope.lastLine || box.first > box.last || !room) {
      inline.push(scope);
      continue;
    }
    if (before !== undefined && before.last >= box.first) {
      before.last = box.first - 1;
    }
    boxes.push(box);
  }
  return boxes;
}

// How many boxes from this one inward begin at one column, so that their edges stand side by side.
function rank(boxes, indents) {
  for (const box of boxes.reverse()) {
    box.indent = indents(box.first);
    const alike = box.inside.filter((inner) => inner.indent <= box.indent);
    box.rank = 1 + alike.reduce((most, inner) => Math.max(most, inner.rank), 0);
  }
}

// The root's box with all boxes inside it, and the scopes without a box. `indents` tells how far a line is indented.
function layOut(scopes, indents) {
  const children = childrenOf(scopes);
  const inline = [];
  const root = { scope: scopes[0], first: 1, last: scopes[0].lastLine, inside: [] };
  const boxes = [root];
  for (const box of boxes) {
    box.inside = boxesInside(children[box.scope.id], box, inline);
    box.inside.forEach((inner) => boxes.push(inner));
  }
  rank(boxes, indents);
  return { root, inline: withInner(inline, children) };
}

// What stands inside a scope without a box has none either.
function withInner(scopes, children) {
  const all = [];
  const waiting = [...scopes];
  while (waiting.length > 0) {
    const scope = waiting.pop();
    all.push(scope);
    for (const inner of children[scope.id]) {
      waiting.push(inner);
    }
  }
  return all;
}

module.exports = { childrenOf, layOut };
