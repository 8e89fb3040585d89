'use strict';
// Modifiers and decorators.

const { visit, plain } = require('./visit');

visit.decorator = plain('Decorator', ['expression', 'expression', 'expression']);

// The mark of each modifier; those without one are told by the kind of node or by where it stands.
const MARKS = {
  AbstractKeyword: 'abstract',
  AsyncKeyword: 'async',
  ConstKeyword: 'const',
  DeclareKeyword: 'declare',
  InKeyword: 'in',
  OutKeyword: 'out',
  OverrideKeyword: 'override',
  PrivateKeyword: 'private',
  ProtectedKeyword: 'protected',
  PublicKeyword: 'public',
  ReadonlyKeyword: 'readonly',
  StaticKeyword: 'static',
};
const UNMARKED = ['AccessorKeyword', 'DefaultKeyword', 'ExportKeyword'];

const isDecorator = (c, node) => node.kind === c.kinds.Decorator;

// The decorators of a node; compilers before 4.8 list them apart.
function decoratorsOf(c, node) {
  return (node.decorators || []).concat((node.modifiers || []).filter((modifier) => isDecorator(c, modifier)));
}

function wordsOf(c, node) {
  return (node.modifiers || []).filter((modifier) => !isDecorator(c, modifier));
}

function modifier(c, node, name) {
  return wordsOf(c, node).find((word) => word.kind === c.kinds[name]);
}

// The modifiers of a node as marks, each of which must be among those allowed.
function modifierMarks(c, node, allowed) {
  const marks = [];
  for (const word of wordsOf(c, node)) {
    const name = c.kindName(word);
    const text = c.text.slice(c.start(word), word.end);
    if (UNMARKED.includes(name)) continue;
    if (!allowed.includes(MARKS[name])) c.refuse(word, `'${text}' modifier cannot be used here`);
    if (marks.includes(MARKS[name])) c.refuse(word, `'${text}' modifier already seen`);
    marks.push(MARKS[name]);
  }
  return marks;
}

module.exports = { decoratorsOf, wordsOf, modifier, modifierMarks };
