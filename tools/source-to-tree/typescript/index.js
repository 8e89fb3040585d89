'use strict';
// From the syntax tree of TypeScript's compiler to the rows of a tree.

const { kindOf } = require('../kinds');
const { Refusal } = require('../refusal');
const { skipTrivia, lineEndFrom, withoutSeparator } = require('../trivia');
const { visit } = require('./visit');
require('./names');
require('./literals');
require('./patterns');
require('./statements');
require('./functions');
require('./classes');
require('./expressions');
require('./jsx');
require('./modules');
require('./declarations');
require('./types');

// The name of each kind: of equal numbers the first name is the kind's own.
function namesOf(kinds) {
  const names = new Map();
  for (const name of Object.keys(kinds)) {
    const kind = kinds[name];
    if (typeof kind === 'number' && !names.has(kind)) names.set(kind, name);
  }
  return names;
}

const LONG_WAY = 256;
const LINKS = new Set(['CallExpression', 'PropertyAccessExpression', 'ElementAccessExpression', 'NonNullExpression']);
const namesByCompiler = new Map();

// One conversion: the compiler, the text, where the rows go, and what is said of pure code.
class TypeScriptConversion {
  constructor(ts, text, writer, annotations) {
    if (!namesByCompiler.has(ts)) namesByCompiler.set(ts, namesOf(ts.SyntaxKind));
    this.ts = ts;
    this.kinds = ts.SyntaxKind;
    this.names = namesByCompiler.get(ts);
    this.text = text;
    this.writer = writer;
    this.annotations = annotations;
    this.isInStaticBlock = false;
    this.isTyped = writer.isTyped;
    this.afterHashbang = text.startsWith('#!') ? lineEndFrom(text, 2) : 0;
    this.hidden = [];
    this.longWays = new Map();
    this.allowed = [];
  }

  // Runs what is inside a static block, or inside a function of one.
  within(isInStaticBlock, run) {
    const outer = this.isInStaticBlock;
    this.isInStaticBlock = isInStaticBlock;
    run();
    this.isInStaticBlock = outer;
  }

  kindName(node) {
    return this.names.get(node.kind);
  }

  // Nodes that begin at one place have one start, and the way to it is gone once where it is long.
  start({ pos }) {
    const known = this.longWays.get(pos);
    if (known !== undefined) return known;
    const start = skipTrivia(this.text, pos === 0 ? this.afterHashbang : pos);
    if (start - pos > LONG_WAY) this.longWays.set(pos, start);
    return start;
  }

  // A node in whose text no comment begins; gives where it starts.
  opaque(node) {
    const start = this.start(node);
    this.hide(start, node.end);
    return start;
  }

  hide(start, end) {
    this.hidden.push([start, end]);
  }

  // What the compiler tells of this part of the text is no fault.
  allowFaults(start, end) {
    this.allowed.push([start, end]);
  }

  open(role, kind, node, text, marks) {
    this.writer.open(role, kindOf(kind), this.start(node), node.end, text, marks);
  }

  // A member of a type, without the mark that parts it from the next.
  openMember(role, kind, node, text, marks) {
    this.writer.open(role, kindOf(kind), this.start(node), withoutSeparator(this.text, node.end), text, marks);
  }

  openAt(role, kind, start, end, text, marks) {
    this.writer.open(role, kindOf(kind), start, end, text, marks);
  }

  close() {
    this.writer.close();
  }

  // A leaf whose text the source has at its place, unless that is spelled with escapes.
  spelled(role, kind, node, text) {
    this.writer.spelled(role, kindOf(kind), this.start(node), node.end, 0, text);
  }

  leafAt(role, kind, start, end, text, marks) {
    this.writer.leaf(role, kindOf(kind), start, end, text, marks);
  }

  leaf(role, kind, node, text, marks) {
    this.writer.leaf(role, kindOf(kind), this.start(node), node.end, text, marks);
  }

  // True for a link of a chain that has `?.`.
  isChain(node) {
    return (node.flags & this.ts.NodeFlags.OptionalChain) !== 0 && LINKS.has(this.kindName(node));
  }

  isArrow(node) {
    return node.kind === this.kinds.ArrowFunction;
  }

  withoutParentheses(node) {
    let inner = node;
    while (inner.kind === this.kinds.ParenthesizedExpression) inner = inner.expression;
    return inner;
  }

  refuse(node, message) {
    throw new Refusal(message, this.start(node));
  }

  // All children of the program.
  program(statements) {
    visit.body(this, statements);
  }
}

module.exports = { TypeScriptConversion };
