'use strict';
// Where it shows that the tables of a name may part from the language, for each reason that the proved program has for that, by one pass
// over the rows and one over the tables; and by these places alone which names are tangled, for a page, which runs no program.
// `__proto__` comes besides, which the program doesn't list: no tie of it parts, but a property of that name is none where it is written out.

const { DEPTH, END, KIND, ROLE, START, TEXT, endsOf, parentsOf } = require('../edits/rows.js');
const { eachDeclaration } = require('./declarations.js');
const { TYPES, sharedNames, typescriptPlaces } = require('./typescript-places.js');

// Why names are tangled, by the word that the program has for it, with the section of ECMAScript.
const REASONS = {
  BlockFunction: 'a function in a block shares its name with another declaration (ECMAScript B.3.2, B.3.3)',
  CatchVariable: 'a `var` stands in a catch clause that catches its name (ECMAScript B.3.4)',
  Arguments: 'each function declares it by itself (ECMAScript 10.2.11)',
  With: 'it is used within `with`, whose object may have a property of that name (ECMAScript 9.1.1.2)',
  Eval: 'code that is run by a direct call of `eval` may use it (ECMAScript 19.2.1.1)',
  FreeNamesake: 'TypeScript may tie this use to a declaration of the file, which the analysis leaves undeclared',
  MergedMember: 'it is declared in one of several namespaces or enums that are merged',
  NamespaceNamesake: 'a namespace and another declaration share the name, and TypeScript may mean either in a qualified name',
  InferredName: 'TypeScript sees what `infer` declares in the true part of its conditional type alone',
  HiddenParameter: 'TypeScript sees no parameter in the type parameters of its function',
  IndexParameter: 'TypeScript means the parameter of the index signature around this use',
  SloppyFunction: 'TypeScript may take this function out of its block, and another declaration shares its name',
  ExportedType: 'TypeScript may export another declaration of the name as a type here',
  TypedVariable: 'TypeScript may see no type of the name where this variable is seen, which passes its block',
  TypedFunctionName: 'TypeScript sees the own name of this function beside a type of that name',
};

// Why another is kept like these, though the program doesn't list it.
const UNLISTED = {
  Proto: 'in an object, `__proto__` sets the prototype or not by how it is written (ECMAScript 13.2.5.5)',
};

const spanOf = (row) => ({ start: row[START], end: row[END] });

const isBlockFunction = ({ way }) => way === 'block function' || way === 'if function';

// The catch clauses around the row at hand, and the names that they catch by the home that they stand in.
class Catches {
  constructor() {
    this.open = [];
    this.caught = new Map();
  }

  enter(row) {
    while (this.open.length > 0 && this.open[this.open.length - 1].depth >= row[DEPTH]) {
      for (const key of this.open.pop().keys) {
        this.caught.set(key, this.caught.get(key) - 1);
      }
    }
    if (row[KIND] === 'CatchClause') {
      this.open.push({ depth: row[DEPTH], keys: [] });
    }
  }

  add(key) {
    this.caught.set(key, (this.caught.get(key) || 0) + 1);
    this.open[this.open.length - 1].keys.push(key);
  }

  has(key) {
    return (this.caught.get(key) || 0) > 0;
  }
}

// Tells by the rows alone: functions in blocks, `var` in catch clauses, `var` in `with`, `arguments`, `__proto__`.
function tangledByRows({ rows, parents, report, inWith }, note) {
  const catches = new Catches();
  const groups = new Map();
  const visit = (declaration) => {
    const { name, way, home, scope, node } = declaration;
    const key = `${home} ${name}`;
    if (!groups.has(key)) {
      groups.set(key, []);
    }
    groups.get(key).push(declaration);
    if (way === 'catch') {
      catches.add(key);
    } else if (way === 'var' && catches.has(key)) {
      note(name, 'CatchVariable', spanOf(rows[node]));
    }
    if (way === 'var' && scope !== null && inWith[scope.id]) {
      note(name, 'With', spanOf(rows[node]));
    }
    if (name === 'arguments' || name === '__proto__') {
      note(name, name === 'arguments' ? 'Arguments' : 'Proto', spanOf(rows[node]));
    }
  };
  eachDeclaration({ rows, parents, report, enter: (row) => catches.enter(row), visit });
  for (const group of groups.values()) {
    const moved = group.length > 1 ? group.find(isBlockFunction) : undefined;
    if (moved !== undefined) {
      note(moved.name, 'BlockFunction', spanOf(rows[moved.node]));
    }
  }
}

function scopesInWith(scopes) {
  const inWith = [];
  for (const scope of scopes) {
    inWith.push(scope.flags.includes('With') || (scope.parent !== null && inWith[scope.parent]));
  }
  return inWith;
}

function tangledByTables({ rows, report, inWith }, note) {
  for (const reference of report.references) {
    if (inWith[reference.scope]) {
      note(reference.name, 'With', spanOf(rows[reference.node]));
    }
  }
  for (const symbol of report.symbols) {
    if (report.scopes[symbol.scope].flags.includes('DirectEval')) {
      note(symbol.name, 'Eval', symbol.span);
    }
  }
}

// TypeScript ties some references that the tables leave free: through qualified names, imports and exports of types, augmentations.
function looseNames({ rows, report }, note) {
  const declared = new Set(report.symbols.map(({ name }) => name));
  for (const reference of report.references) {
    if (reference.symbol === null && declared.has(reference.name)) {
      note(reference.name, 'FreeNamesake', spanOf(rows[reference.node]));
    }
  }
}

const MERGED_KINDS = new Set(['TSNamespaceDeclaration', 'TSExternalModuleDeclaration', 'TSEnumDeclaration', 'TSGlobalDeclaration']);
const NAME_KINDS = new Set(['BindingIdentifier', 'IdentifierName', 'StringLiteral']);

// The last name of a namespace, module or enum: of `A.B` it is `B`.
function lastName({ rows, parents, ends }, declaration) {
  if (rows[declaration][KIND] === 'TSGlobalDeclaration') {
    return 'global';
  }
  let found = null;
  for (let node = declaration + 1; node < ends[declaration]; node += 1) {
    if (parents[node] === declaration && rows[node][ROLE] === 'body') {
      break;
    }
    found = NAME_KINDS.has(rows[node][KIND]) ? rows[node][TEXT] : found;
  }
  return found;
}

// What is bound directly in one of several blocks of a name may be meant from the others.
function mergedNames({ rows, parents, ends, report }, note) {
  const owners = [];
  const blocks = new Map();
  for (const scope of report.scopes) {
    const isBody = rows[scope.node][KIND] === 'TSEnumBody' || rows[scope.node][KIND] === 'TSModuleBlock';
    const declaration = isBody ? parents[scope.node] : scope.node;
    if (MERGED_KINDS.has(rows[declaration][KIND])) {
      const name = lastName({ rows, parents, ends }, declaration);
      blocks.set(name, (blocks.get(name) || 0) + 1);
      owners.push({ scope, name });
    }
  }
  for (const { scope } of owners.filter(({ name }) => blocks.get(name) > 1)) {
    for (const binding of scope.bindings) {
      note(binding.name, 'MergedMember', report.symbols[binding.symbol].span);
    }
  }
}

const MODULES = new Set(['ValueModule', 'NamespaceModule']);
const IMPORTS = new Set(['Import', 'TypeImport']);

// Whether a qualified name may pass the symbol in the tables and not in TypeScript, or the other way round: a namespace that is no type, or
// an alias in a namespace.
function mayBePassed({ flags, scope }) {
  const has = (some) => flags.some((flag) => some.has(flag));
  return (has(MODULES) && !has(TYPES)) || (has(IMPORTS) && scope !== 0);
}

function namesakes({ report }, note) {
  const shared = sharedNames(report);
  for (const symbol of report.symbols.filter((one) => shared.has(one.name) && mayBePassed(one))) {
    note(symbol.name, 'NamespaceNamesake', symbol.span);
  }
}

// Where each reason of each name shows: the first span.
class Places {
  constructor() {
    this.found = new Map();
  }

  note(name, reason, span) {
    const spans = this.found.get(name) || new Map();
    if (!spans.has(reason)) {
      this.found.set(name, spans.set(reason, span));
    }
  }

  spanOf(name, reason) {
    return this.found.get(name)?.get(reason);
  }

  // Each name with its first reason among some.
  firstOf(reasons) {
    const found = new Map();
    for (const [name, spans] of this.found) {
      const reason = [...spans.keys()].find((one) => reasons[one] !== undefined);
      if (reason !== undefined) {
        found.set(name, { reason: reasons[reason], span: spans.get(reason) });
      }
    }
    return found;
  }
}

const isTypeScript = ({ lang }) => lang !== 'js' && lang !== 'jsx';

function placesIn(tree, report) {
  const { rows } = tree;
  const places = new Places();
  const note = places.note.bind(places);
  const parents = parentsOf(rows);
  const known = { rows, parents, ends: endsOf(rows), report, inWith: scopesInWith(report.scopes), isModule: tree.goal === 'module' };
  tangledByRows(known, note);
  tangledByTables(known, note);
  if (isTypeScript(tree)) {
    looseNames(known, note);
    mergedNames(known, note);
    namesakes(known, note);
    typescriptPlaces(known, note);
  }
  return places;
}

// The tangled names as far as places tell them, each with its first reason in words and the span that shows it.
function tangledByPlaces({ tree, report }) {
  return placesIn(tree, report).firstOf({ ...REASONS, ...UNLISTED });
}

module.exports = { REASONS, UNLISTED, placesIn, tangledByPlaces };
