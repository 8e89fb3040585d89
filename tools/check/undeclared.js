'use strict';
// The rule no-undeclared: references to names that neither the file declares nor anybody else is known to.

const { knownSets } = require('./environments.js');

const VALUES = ['Read', 'Write', 'ValueAsType'];

// `typeof name` asks whether there is such a name.
function isUnderTypeof(tree, span) {
  let node = tree.rows.nodeAt('IdentifierReference', span.start);
  do {
    node = tree.parent(node);
  } while (tree.row(node).kind === 'ParenthesizedExpression');
  const { kind, text } = tree.row(node);
  return kind === 'UnaryExpression' && text === 'typeof';
}

// A name that stands for a type alone: compilers know these better.
function isType(answers, id) {
  return answers.tree.isTyped && !answers.reference(id).flags.some((flag) => VALUES.includes(flag));
}

// `globals`: true for names that are known, false for those that aren't, also where an environment has them.
function* undeclared(answers, { env, globals }) {
  const found = answers.namesOf('undeclared');
  if (found.length === 0) {
    return;
  }
  const sets = knownSets(env, new Set(found.map(({ name }) => name)), answers.tree.goal);
  const isKnown = (name) => globals.get(name) ?? sets.some((set) => set.has(name));
  for (const { id, name, span } of found) {
    if (!isKnown(name) && !isUnderTypeof(answers.tree, span) && !isType(answers, id)) {
      yield { span, message: `'${name}' is not declared` };
    }
  }
}

module.exports = { undeclared };
