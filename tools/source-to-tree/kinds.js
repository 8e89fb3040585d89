'use strict';
// The kinds of nodes: what is written of each, and what one tells of the file.

const { HEAD_ROOM, HEADS, HEAD_LENGTHS, wordsOf } = require('./bytes');

// Statements of a program that make it a module.
const MODULE_STATEMENTS = new Set(['ImportDeclaration', 'ExportDeclaration', 'ExportNamedDeclaration', 'ExportFromDeclaration',
  'ExportDefaultDeclaration', 'ExportAllDeclaration', 'TSExportAssignment', 'TSNamespaceExportDeclaration']);
const FUNCTIONS = new Set(['Function', 'ArrowFunctionExpression']);

const SLOTS = 16; // for roles of a kind, of which hardly two that many nodes have share one

let heads = 0; // how many there are

// Keeps a role and a kind as they are written, and gives their number.
function keptHead(role, name) {
  const { words, length } = wordsOf(`,"${role}","${name}",`);
  HEADS.set(words, HEAD_ROOM * heads);
  HEAD_LENGTHS[heads] = length;
  return heads++;
}

// What is written of each kind, and what a kind tells of the file: made when the kind is met first.
class Kind {
  constructor(name) {
    this.name = name;
    this.heads = new Map(); // by role: the number of its head
    this.roles = new Array(SLOTS).fill(''); // the last one of each slot
    this.slots = new Array(SLOTS).fill(0); // their heads
    this.isFunction = FUNCTIONS.has(name);
    this.isTyped = name.startsWith('TS');
    this.isJsx = name.startsWith('JSX');
    this.isModuleStatement = MODULE_STATEMENTS.has(name);
    this.isExternal = name === 'TSExternalModuleReference';
    this.isAwait = name === 'AwaitExpression';
    this.mayAwait = this.isAwait || name === 'ForOfStatement' || name === 'VariableDeclaration';
    this.isPlain = !(this.isFunction || this.isTyped || this.isJsx || this.isModuleStatement || this.mayAwait);
  }

  headFor(role) {
    const slot = (role.length + role.charCodeAt(0)) % SLOTS;
    return this.roles[slot] === role ? this.slots[slot] : this.takeHead(role, slot);
  }

  takeHead(role, slot) {
    if (!this.heads.has(role)) this.heads.set(role, keptHead(role, this.name));
    this.roles[slot] = role;
    this.slots[slot] = this.heads.get(role);
    return this.slots[slot];
  }
}

const kinds = new Map();

function kindOf(name) {
  const kind = kinds.get(name);
  if (kind !== undefined) return kind;
  kinds.set(name, new Kind(name));
  return kinds.get(name);
}

module.exports = { kindOf };
