'use strict';
// What TypeScript's checker ties each name of a small module to, without a library.

const ts = require('../../source-to-tree/load').load('typescript');

const FILE = 'module.ts';
const OPTIONS = { noLib: true, noResolve: true, types: [], target: ts.ScriptTarget.ESNext, module: ts.ModuleKind.ESNext };

// What it says of names that it doesn't find, finds as something else, or finds unused by their order; and of the library that isn't there.
const OF_NAMES = new Set([2304, 2318, 2339, 2448, 2449, 2450, 2454, 2503, 2552, 2651, 2683, 2686, 2693, 2694, 2702, 2708, 2709, 2713, 2724, 2749]);
const OF_VALUES = new Set([1155, 2322, 2362, 2363, 2474, 2477, 2478, 2564, 7005, 7022, 18033]);

function hostOf(file) {
  return {
    fileExists: (name) => name === FILE,
    readFile: () => undefined,
    getSourceFile: (name) => (name === FILE ? file : undefined),
    getDefaultLibFileName: () => 'lib.d.ts',
    writeFile: () => {},
    getCurrentDirectory: () => '',
    getCanonicalFileName: (name) => name,
    useCaseSensitiveFileNames: () => true,
    getNewLine: () => '\n',
  };
}

function symbolOf(checker, identifier) {
  const { parent } = identifier;
  if (ts.isExportSpecifier(parent)) {
    return checker.getExportSpecifierLocalTargetSymbol(parent);
  }
  return ts.isShorthandPropertyAssignment(parent) ? checker.getShorthandAssignmentValueSymbol(parent) : checker.getSymbolAtLocation(identifier);
}

// Where the names of a symbol's declarations begin.
function startsOf(symbol) {
  const named = ((symbol && symbol.declarations) || []).map((declaration) => ts.getNameOfDeclaration(declaration)).filter((name) => name !== undefined);
  return named.map((name) => name.getStart());
}

// The errors of a module; null where the checker follows a ring of imports until its stack is full.
function errorsOf(program, file) {
  try {
    return [...program.getSyntacticDiagnostics(file), ...program.getSemanticDiagnostics(file)];
  } catch (error) {
    if (error instanceof RangeError) {
      return null;
    }
    throw error;
  }
}

// What else it says of types that are circular, have too few arguments or too many, or don't fit.
const OF_TYPES = new Set([2312, 2313, 2314, 2315, 2344, 2355, 2359, 2365, 2420, 2456, 2488, 2495, 2502, 2506, 2536, 2538, 2558, 2862, 4109, 7022, 7023, 7024, 18050]);

// Where it tells that a name isn't found, or only as something else.
const NOWHERE = new Set([2304, 2503, 2552, 2693, 2702, 2709, 2713, 2749]);

// For each identifier, by where it begins, where the declarations begin that it is tied to, but for those at which an error is told: they
// mean nothing there. null where the module has errors of another kind than that of names; with `wide` those of types are put up with, and it
// tells which identifiers it doesn't find as well, with how long what it points at is.
function tiesByChecker(source, { wide = false } = {}) {
  const file = ts.createSourceFile(FILE, source, OPTIONS.target, true);
  const program = ts.createProgram([FILE], OPTIONS, hostOf(file));
  const errors = errorsOf(program, file);
  if (errors === null || errors.some(({ code }) => !OF_NAMES.has(code) && !OF_VALUES.has(code) && !(wide && OF_TYPES.has(code)))) {
    return wide ? { ties: null } : null;
  }
  const checker = program.getTypeChecker();
  const faulty = new Set(errors.map(({ start }) => start));
  const ties = new Map();
  const visit = (node) => {
    if (ts.isIdentifier(node) && !faulty.has(node.getStart())) {
      ties.set(node.getStart(), startsOf(symbolOf(checker, node)));
    }
    ts.forEachChild(node, visit);
  };
  visit(file);
  return wide ? { ties, unknown: new Map(errors.filter(({ code }) => NOWHERE.has(code)).map(({ start, length }) => [start, length])) } : ties;
}

module.exports = { tiesByChecker };
