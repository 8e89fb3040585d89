'use strict';
// One file of a set: its text, its outline, and what kind of module it is.

const fs = require('fs');
const path = require('path');
const { treeOf } = require('../source-to-tree/convert.js');
const { readText } = require('../analyse/files.js');
const { Positions } = require('../analyse/positions.js');
const { Refusal } = require('../analyse/refusal.js');
const { BOUNDS } = require('../analyse/tree.js');
const { goalOfName, isDeclarations, isInPackage, isTyped, kindOf } = require('./kinds.js');
const { outlineOf } = require('./outline.js');

// Where an import or export statement may begin, and the words without which a file is no module.
const STATEMENT = /(?:^|[;}]|\*\/)[ \t]*(?:import|export)\b[ \t]*(?![ \t.(:=,])/m;
const WORD = /\b(?:import|export|await)\b/;

// Which kinds stand in the linked set with what they export; of others nothing is known.
const LINKED = new Set(['module', 'json', 'script']);

class SourceModule {
  constructor(file, shown) {
    this.file = file;
    this.shown = shown;
    // `module`, `commonjs`, `script` (neither), `json`, `css`, `asset`, `refused` by a parser, or `unreadable`
    this.kind = kindOf(file);
    this.isPackaged = isInPackage(file);
    this.number = -1;
    this.text = null;
    this.tree = null;
    this.outline = null;
    this.refusal = null;
    this.specifiers = [];
  }

  get isLinked() {
    return LINKED.has(this.kind);
  }

  get positions() {
    this.placed = this.placed || new Positions(this.text);
    return this.placed;
  }
}

// The `type` of the nearest package.json, looked up once for each folder.
function packageTypes() {
  const known = new Map();
  return function typeOf(folder) {
    if (!known.has(folder)) {
      const above = path.dirname(folder);
      const own = readType(path.join(folder, 'package.json'));
      known.set(folder, own !== null || above === folder ? own : typeOf(above));
    }
    return known.get(folder);
  };
}

// null where there is no such file.
function readType(file) {
  try {
    const { type } = JSON.parse(fs.readFileSync(file, 'utf8')) || {};
    return type === 'module' || type === 'commonjs' ? type : 'none';
  } catch (error) {
    return error.code === 'ENOENT' || error.code === 'ENOTDIR' ? null : 'none';
  }
}

// The tree's JSON. A file of JavaScript that looks like a module is read as one first, which spares reading it twice.
function treeOfText(text, file, isModule) {
  const guessed = isModule || (!isTyped(file) && STATEMENT.test(text));
  if (!guessed || goalOfName(file) === 'commonjs') {
    return treeOf(text, { filename: file }).json;
  }
  try {
    return treeOf(text, { filename: file, goal: 'module' }).json;
  } catch (error) {
    if (isModule || error.name !== 'Refusal') {
      throw error;
    }
    return treeOf(text, { filename: file }).json;
  }
}

function kindByContent({ file, outline }, { goal, wasGuessed }, type) {
  if (goalOfName(file) === 'commonjs' || outline.exportEquals) {
    return 'commonjs';
  }
  if (outline.isModule || type === 'module' || goalOfName(file) === 'module' || (goal === 'module' && !wasGuessed)) {
    return 'module';
  }
  // Declarations without imports and exports say what modules of other names have.
  return outline.looksCommon || type === 'commonjs' || isDeclarations(file) ? 'commonjs' : 'script';
}

// A parser's place counts units of the string behind a byte order mark.
function refusalOf(error, module) {
  if (error.name !== 'Refusal') {
    throw error;
  }
  const mark = module.text.startsWith('\ufeff') ? 1 : 0;
  const index = typeof error.offset === 'number' ? error.offset + mark : null;
  const message = BOUNDS[error.message] || error.message;
  return { message: message.replace(/\s*[\r\n]+\s*/g, ' '), index };
}

function readContent(module, { type, keepTree }) {
  try {
    const json = treeOfText(module.text, module.file, type === 'module' || goalOfName(module.file) === 'module');
    const tree = JSON.parse(json);
    module.outline = outlineOf(tree);
    const wasGuessed = !isTyped(module.file) && STATEMENT.test(module.text);
    module.kind = kindByContent(module, { goal: tree.goal, wasGuessed }, type);
    module.specifiers = module.outline.specifiers;
    module.tree = keepTree ? json : null;
  } catch (error) {
    module.refusal = refusalOf(error, module);
    module.kind = module.refusal.index === null ? 'unreadable' : 'refused';
  }
}

const COMMON = /\b(?:module|exports|require|define)\b/;

// What the words of a file tell without a parser: one without any that a module has is none, unless its package or its name
// says so, nor is one that names what CommonJS has and has no statement of a module.
function kindByWords(module, type) {
  const goal = goalOfName(module.file);
  if (type === 'module' || goal === 'module' || isTyped(module.file) || STATEMENT.test(module.text)) {
    return undefined;
  }
  if (goal === 'commonjs' || type === 'commonjs' || COMMON.test(module.text)) {
    return 'commonjs';
  }
  return WORD.test(module.text) ? undefined : 'script';
}

// Reads a file of source. An entry is always parsed.
function readModule(module, { typeOf, isEntry, keepTree }) {
  try {
    module.text = readText(module.file);
  } catch (error) {
    if (!(error instanceof Refusal)) {
      throw error;
    }
    module.refusal = { message: error.message, index: null };
    module.kind = 'unreadable';
    return;
  }
  const type = typeOf(path.dirname(module.file));
  const kind = isEntry ? undefined : kindByWords(module, type);
  if (kind === undefined) {
    readContent(module, { type, keepTree });
  } else {
    module.kind = kind;
  }
}

module.exports = { SourceModule, packageTypes, readModule };
