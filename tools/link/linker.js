'use strict';
// Runs the proved linker on the outlines of a set, once, and gives what it says of each import and of each export that leads
// on: for the latter a module of our own imports each of them, so that a re-export that nobody imports is asked for, too.

const { runTool } = require('../programs/index.js');
const { RunFault } = require('../bolgwyr/faults.js');

const EMPTY = 'empty';
const ASKING = 'asking';

const IDENTIFIER = /^[\p{ID_Start}$_][\p{ID_Continue}$\u200c\u200d]*$/u;

const FAILURES = new Map([
  [4, 'the set of modules is too large: its outlines have more than 67,108,864 bytes'],
  [5, 'the linker could not read the set of modules'],
  [6, 'the linker could not write its answer'],
  [7, 'the linker wants more memory'],
]);

// A text in ASCII, as a file's name may have halves of characters, which the linker takes none of; texts that differ stay so.
const ascii = (text) => text.replace(/[^ -[\]-~]/g, (unit) => `\\u${unit.charCodeAt(0).toString(16)};`);

// What a module is called in the set. Of what stands outside of it the linker takes no `export *`: that leads to a module
// without exports, and what it may pass on is told apart later.
function linkedName(specifier) {
  const { to, isStar } = specifier;
  if (to.module !== undefined && to.module.isLinked) {
    return `m${to.module.number}`;
  }
  if (isStar) {
    return EMPTY;
  }
  return `x:${ascii(to.module === undefined ? to.external || specifier.text : to.module.file)}`;
}

function rowText([depth, role, kind, text, mark]) {
  const content = JSON.stringify(typeof text === 'string' ? text : linkedName(text));
  return `[${depth},"${role}","${kind}",0,0,${content},[${mark === undefined ? '' : `"${mark}"`}]]`;
}

function treeText(rows) {
  return `{"comments":[],"format":1,"goal":"module","lang":"js","rows":[${rows.map(rowText).join(',')}],"source":""}`;
}

const ROOT = [0, 'root', 'Program', ''];

// What JSON and plain scripts export.
const DEFAULT_ONLY = [ROOT, [1, 'body', 'ExportDefaultDeclaration', ''], [2, 'declaration', 'NumericLiteral', '0', 'decimal']];

// The exports of the set that lead on to other modules or to locals.
function leadingExports(modules) {
  const list = [];
  for (const module of modules.filter((one) => one.kind === 'module')) {
    for (const entry of module.outline.exports.values()) {
      if (entry.what === 'passed' || entry.what === 'listed') {
        list.push({ module, entry });
      }
    }
  }
  return list;
}

// Each asked for by an import of its own.
function askingRows(asked) {
  const rows = [ROOT];
  asked.forEach(({ module, entry }, place) => {
    rows.push(
      [1, 'body', 'ImportDeclaration', ''],
      [2, 'specifiers', 'ImportSpecifier', ''],
      [3, 'imported', IDENTIFIER.test(entry.name) ? 'IdentifierName' : 'StringLiteral', entry.name],
      [3, 'local', 'BindingIdentifier', `asked${place}`],
      [2, 'source', 'StringLiteral', `m${module.number}`],
    );
  });
  return rows;
}

const memberText = (name, rows) => Buffer.from(`{"name":${JSON.stringify(name)},"tree":${JSON.stringify(treeText(rows))}}`);

function setText(linked, asked) {
  const rowsOf = (module) => (module.kind === 'module' ? module.outline.rows : DEFAULT_ONLY);
  const members = linked.map((module) => memberText(`m${module.number}`, rowsOf(module)));
  members.push(memberText(EMPTY, [ROOT]), memberText(ASKING, askingRows(asked)));
  const pieces = members.flatMap((one, place) => (place === 0 ? [one] : [Buffer.from(','), one]));
  return Buffer.concat([Buffer.from('{"modules":['), ...pieces, Buffer.from(']}')]);
}

// A line of refusal, with the file in the place of the module's number.
function refusedSet(line, linked) {
  const found = /^link: (.*?)(\d+)(.*)$/.exec(line);
  const module = found === null ? undefined : linked[Number(found[2])];
  const what = module === undefined ? 'the set' : module.shown;
  return new RunFault(`the linker refuses ${what}: ${line.replace(/^link: /, '')}`);
}

// Lines `import MODULE NODE "NAME" OUTCOME ..`, in the order of modules and nodes.
function outcomesOf(stdout) {
  const lines = stdout.toString('utf8').split('\n');
  return lines.filter((line) => line.startsWith('import ')).map((line) => {
    const [, module, node] = line.split(' ', 3);
    const [word, ...numbers] = line.slice(line.lastIndexOf('"') + 2).split(' ');
    const [number = null, symbol = null] = numbers.map(Number);
    return { module: Number(module), node: Number(node), word, number, symbol };
  });
}

function run(linked, asked) {
  const { status, signal, stdout, stderr } = runTool('module_linker', [], setText(linked, asked));
  if (status === 0 || status === 1) {
    return outcomesOf(stdout);
  }
  const line = stderr.trim().split('\n').pop();
  if (status === 3) {
    throw refusedSet(line, linked);
  }
  throw new RunFault(FAILURES.get(status) || `the linker ended with ${signal || status}: ${line}`);
}

function importsByNode(module) {
  return new Map((module.outline === null ? [] : module.outline.imports).map((one) => [one.node, one]));
}

// {imports: [{module, wanted, outcome}], exports: [{module, entry, outcome}]}; an outcome has `word`, `module` and `symbol`,
// which counts what the module's outline declares.
function outcomes(modules) {
  const linked = modules.filter((module) => module.isLinked);
  const asked = leadingExports(modules);
  const byNode = linked.map(importsByNode);
  const imports = [];
  const exports = [];
  for (const { module, node, word, number, symbol } of run(linked, asked)) {
    const outcome = { word, module: linked[number] || null, symbol };
    if (module < linked.length) {
      imports.push({ module: linked[module], wanted: byNode[module].get(node), outcome });
    } else {
      exports.push({ ...asked[exports.length], outcome });
    }
  }
  return { imports, exports };
}

module.exports = { linkedName, outcomes };
