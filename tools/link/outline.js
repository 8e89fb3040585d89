'use strict';
// The outline of a module: what it imports, exports and declares, without what stands inside of functions, classes and
// expressions. The linker's answer stands on this alone, so the outline goes to it in place of the whole tree.
//
// In an outline each declaration is a `var` of its names, types too: what a module of TypeScript declares as a type is
// exported and imported as any other name. An outline has
// - `rows`: [depth, role, kind, text], where a text may be a specifier, whose target is known later;
// - `specifiers`: {text, span, way, typed, required}, what the module names other modules by;
// - `imports`: {node, name, span, local, specifier}, in the order of their nodes; a `name` of null wants the whole module;
// - `exports`: by name {name, span, what, local, specifier};
// - `stars`: {span, specifier};
// - `repeated`: {name, span, first}, names that are exported again;
// - `declared`: the names that its declarations bind;
// - `isModule`, `exportEquals`, `looksCommon`: what kind of file the tree shows.

const { Rows } = require('./rows.js');
const { boundNames, variableNames } = require('./names.js');
const { findExpressions } = require('./expressions.js');

const MODULE_STATEMENTS = new Set(['ImportDeclaration', 'ExportDeclaration', 'ExportNamedDeclaration', 'ExportFromDeclaration',
  'ExportDefaultDeclaration', 'ExportAllDeclaration', 'TSExportAssignment', 'TSNamespaceExportDeclaration']);

// In declarations of TypeScript without one of these, all that is declared is exported.
const EXPORT_LISTS = new Set(['ExportNamedDeclaration', 'ExportFromDeclaration', 'ExportAllDeclaration', 'TSExportAssignment']);

const DECLARATIONS = new Set(['VariableDeclaration', 'Function', 'Class', 'TSInterfaceDeclaration', 'TSTypeAliasDeclaration',
  'TSEnumDeclaration', 'TSNamespaceDeclaration', 'TSImportEqualsDeclaration']);

function emptyOutline() {
  return {
    rows: [[0, 'root', 'Program', '']],
    specifiers: [],
    imports: [],
    exports: new Map(),
    stars: [],
    repeated: [],
    declared: new Set(),
    isModule: false,
    exportEquals: false,
    looksCommon: false,
  };
}

// Adds a row, and gives its node.
function emit(outline, depth, role, kind, text = '') {
  return outline.rows.push([depth, role, kind, text]) - 1;
}

function addSpecifier(outline, rows, literal, way, typed = false) {
  const specifier = { text: rows.text(literal), span: rows.span(literal), way, typed };
  outline.specifiers.push(specifier);
  return specifier;
}

function emitVariable(outline, depth, role, name) {
  emit(outline, depth, role, 'VariableDeclaration', 'var');
  emit(outline, depth + 1, 'declarators', 'VariableDeclarator');
  emit(outline, depth + 2, 'id', 'BindingIdentifier', name);
}

function declare(outline, rows, names) {
  for (const at of names) {
    const name = rows.text(at);
    if (!outline.declared.has(name)) {
      outline.declared.add(name);
      emitVariable(outline, 1, 'body', name);
    }
  }
}

// In TypeScript several declarations may be one: overloads, and types that merge.
function mergesWith(earlier, later, typed) {
  return typed && earlier.declares && later.declares;
}

// Notes an export; false where the name is exported before, and then the linker isn't told of it again.
function addExport(outline, typed, entry) {
  const first = outline.exports.get(entry.name);
  if (first === undefined) {
    outline.exports.set(entry.name, entry);
    return true;
  }
  if (!mergesWith(first, entry, typed)) {
    outline.repeated.push({ name: entry.name, span: entry.span, first: first.span });
  }
  return false;
}

// One import specifier; the place of the import is that of the name which is wanted.
function importSpecifier(outline, rows, at, specifier) {
  const kind = rows.kind(at);
  const local = rows.child(at, 'local');
  const imported = rows.child(at, 'imported');
  const node = emit(outline, 2, 'specifiers', kind);
  if (imported !== undefined) {
    emit(outline, 3, 'imported', rows.kind(imported), rows.text(imported));
  }
  emit(outline, 3, 'local', 'BindingIdentifier', rows.text(local));
  outline.imports.push({
    node,
    name: imported !== undefined ? rows.text(imported) : kind === 'ImportDefaultSpecifier' ? 'default' : null,
    span: rows.span(imported === undefined ? local : imported),
    local: rows.text(local),
    specifier,
  });
}

function exportSpecifier(outline, rows, at, { typed, specifier }) {
  const local = rows.child(at, 'local');
  const exported = rows.child(at, 'exported');
  const entry = {
    name: rows.text(exported),
    span: rows.span(local),
    what: specifier === null ? 'listed' : 'passed',
    local: rows.text(local),
    specifier,
    declares: false,
  };
  if (addExport(outline, typed, entry)) {
    emit(outline, 2, 'specifiers', 'ExportSpecifier');
    emit(outline, 3, 'local', rows.kind(local), rows.text(local));
    emit(outline, 3, 'exported', rows.kind(exported), rows.text(exported));
  }
}

function exportDeclared(outline, rows, names, typed) {
  for (const at of names) {
    const name = rows.text(at);
    outline.declared.add(name);
    const entry = { name, span: rows.span(at), what: 'declared', local: name, specifier: null, declares: true };
    if (addExport(outline, typed, entry)) {
      emit(outline, 1, 'body', 'ExportDeclaration');
      emitVariable(outline, 2, 'declaration', name);
    }
  }
}

// A function or class may have a name, which the default export then leads to.
function emitDefault(outline, name) {
  emit(outline, 1, 'body', 'ExportDefaultDeclaration');
  if (name === null) {
    outline.rows.push([2, 'declaration', 'NumericLiteral', '0', 'decimal']);
    return;
  }
  emit(outline, 2, 'declaration', 'Function', 'declaration');
  emit(outline, 3, 'id', 'BindingIdentifier', name);
  emit(outline, 3, 'params', 'FormalParameters', 'formal');
  emit(outline, 3, 'body', 'FunctionBody');
}

const NAMED_DEFAULTS = new Set(['Function', 'Class']);

function exportDefault(outline, rows, at, typed) {
  const declaration = rows.child(at, 'declaration');
  const declares = DECLARATIONS.has(rows.kind(declaration)) && rows.text(declaration) !== 'expression';
  const [id] = declares ? boundNames(rows, declaration) : [];
  const leadsToName = id !== undefined && NAMED_DEFAULTS.has(rows.kind(declaration));
  const local = leadsToName ? rows.text(id) : null;
  const isFirst = addExport(outline, typed, { name: 'default', span: rows.span(at), what: 'default', local, specifier: null, declares });
  if (isFirst) {
    emitDefault(outline, local);
  }
  if (isFirst && leadsToName) {
    outline.declared.add(local);
  } else if (id !== undefined) {
    declare(outline, rows, [id]);
  }
}

const STATEMENTS = {
  ImportDeclaration(outline, rows, at) {
    const source = rows.child(at, 'source');
    const specifier = addSpecifier(outline, rows, source, 'import', rows.isMarked(at, 'type'));
    emit(outline, 1, 'body', 'ImportDeclaration');
    for (const child of rows.children(at)) {
      if (rows.role(child) === 'specifiers') {
        importSpecifier(outline, rows, child, specifier);
      }
    }
    emit(outline, 2, 'source', 'StringLiteral', specifier);
  },
  ExportFromDeclaration(outline, rows, at, typed) {
    const specifier = addSpecifier(outline, rows, rows.child(at, 'source'), 'export', rows.isMarked(at, 'type'));
    emit(outline, 1, 'body', 'ExportFromDeclaration');
    for (const child of rows.children(at).filter((one) => rows.role(one) === 'specifiers')) {
      exportSpecifier(outline, rows, child, { typed, specifier });
    }
    emit(outline, 2, 'source', 'StringLiteral', specifier);
  },
  ExportNamedDeclaration(outline, rows, at, typed) {
    emit(outline, 1, 'body', 'ExportNamedDeclaration');
    for (const child of rows.children(at)) {
      exportSpecifier(outline, rows, child, { typed, specifier: null });
    }
  },
  ExportAllDeclaration(outline, rows, at, typed) {
    const source = rows.child(at, 'source');
    const exported = rows.child(at, 'exported');
    const specifier = addSpecifier(outline, rows, source, 'export', rows.isMarked(at, 'type'));
    if (exported === undefined) {
      outline.stars.push({ span: rows.span(at), specifier });
      specifier.isStar = true;
    } else if (!addExport(outline, typed, collected(rows, exported, specifier))) {
      return;
    }
    emit(outline, 1, 'body', 'ExportAllDeclaration');
    if (exported !== undefined) {
      emit(outline, 2, 'exported', rows.kind(exported), rows.text(exported));
    }
    emit(outline, 2, 'source', 'StringLiteral', specifier);
  },
  ExportDeclaration(outline, rows, at, typed) {
    const declaration = rows.child(at, 'declaration');
    exportDeclared(outline, rows, boundNames(rows, declaration), typed);
  },
  ExportDefaultDeclaration(outline, rows, at, typed) {
    exportDefault(outline, rows, at, typed);
  },
  TSExportAssignment(outline) {
    outline.exportEquals = true;
  },
  TSExternalModuleDeclaration(outline, rows, at) {
    addSpecifier(outline, rows, rows.child(at, 'id'), 'augment', true);
  },
};

function collected(rows, exported, specifier) {
  return { name: rows.text(exported), span: rows.span(exported), what: 'collected', local: null, specifier, declares: false };
}

function isExportContext(rows, lang) {
  return lang === 'dts' && !rows.children(0).some((at) => EXPORT_LISTS.has(rows.kind(at)));
}

function addStatement(outline, rows, at, { typed, exportsAll }) {
  const kind = rows.kind(at);
  if (MODULE_STATEMENTS.has(kind)) {
    outline.isModule = true;
  }
  if (Object.hasOwn(STATEMENTS, kind)) {
    STATEMENTS[kind](outline, rows, at, typed);
  } else if (DECLARATIONS.has(kind)) {
    const names = boundNames(rows, at);
    exportsAll ? exportDeclared(outline, rows, names, typed) : declare(outline, rows, names);
  } else {
    declare(outline, rows, variableNames(rows, at));
  }
}

// The outline of a tree that was read from its JSON.
function outlineOf(tree) {
  const rows = new Rows(tree.rows);
  const outline = emptyOutline();
  const typed = tree.lang !== 'js' && tree.lang !== 'jsx';
  const exportsAll = isExportContext(rows, tree.lang);
  for (const at of rows.children(0)) {
    addStatement(outline, rows, at, { typed, exportsAll });
  }
  findExpressions(rows, (literal, way, isTyped) => addSpecifier(outline, rows, literal, way, isTyped), outline);
  return outline;
}

module.exports = { outlineOf };
