'use strict';
// From an ESTree, plain or in the dialects of Babel and typescript-eslint, to the rows of a tree.

const { kindOf } = require('../kinds');
const { Refusal } = require('../refusal');
const { nameEnd } = require('../trivia');
const { visit } = require('./visit');
require('./names');
require('./literals');
require('./patterns');
require('./statements');
require('./functions');
require('./classes');
require('./expressions');
require('./modules');
require('./types');
require('./declarations');
require('./jsx');

// One conversion: the text, where the rows go, and what is said of pure code. Its nodes have `start` and `end`.
class EstreeConversion {
  constructor(text, writer, annotations) {
    this.text = text;
    this.writer = writer;
    this.annotations = annotations;
    this.isInStaticBlock = false;
  }

  // Visits what is inside a static block, or inside a function of one.
  within(isInStaticBlock, visitor, node) {
    const outer = this.isInStaticBlock;
    this.isInStaticBlock = isInStaticBlock;
    visitor(this, node);
    this.isInStaticBlock = outer;
  }

  start(node) {
    return node.start;
  }

  end(node) {
    return node.end;
  }

  nameEnd(start) {
    return nameEnd(this.text, start);
  }

  // The end of a pattern without its type.
  bindingEnd(node) {
    return node.type === 'Identifier' ? this.nameEnd(this.start(node)) : this.end(node);
  }

  // Of a kind that few nodes are of. Visitors of the others have their kind at hand, and give it to the writer themselves.
  open(role, name, node, text, marks) {
    this.writer.open(role, kindOf(name), node.start, node.end, text, marks);
  }

  openAt(role, name, start, end, text, marks) {
    this.writer.open(role, kindOf(name), start, end, text, marks);
  }

  close() {
    this.writer.close();
  }

  leaf(role, name, node, text, marks) {
    this.writer.leaf(role, kindOf(name), node.start, node.end, text, marks);
  }

  leafAt(role, name, start, end, text, marks) {
    this.writer.leaf(role, kindOf(name), start, end, text, marks);
  }

  // A leaf whose text the source has between so many marks on each side, unless that is spelled with escapes.
  spelled(role, kind, start, end, marksRound, text, marks) {
    this.writer.spelled(role, kind, start, end, marksRound, text, marks);
  }

  refuse(node, message) {
    throw new Refusal(message, node && (node.range || node.start !== undefined) ? this.start(node) : null);
  }

  // All children of the program.
  program(ast) {
    visit.body(this, ast.type === 'File' ? ast.program : ast);
  }
}

// A tree of another tool, whose texts needn't be those of the source.
class ForeignConversion extends EstreeConversion {
  spelled(role, kind, start, end, marksRound, text, marks) {
    this.writer.leaf(role, kind, start, end, text, marks);
  }
}

module.exports = { EstreeConversion, ForeignConversion };
