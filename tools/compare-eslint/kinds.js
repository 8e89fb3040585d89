'use strict';
// In what the two linters differ, and why. A difference has one side, a rule, a place and a message; `tables` are the
// analysis of the text.

// The symbol that is declared at a place.
function symbolAt({ symbols }, { line, column }) {
  return symbols.find(({ span, redeclarations }) => [{ span }, ...redeclarations].some((one) => one.span.line === line && one.span.column === column));
}

function usesOf(tables, difference) {
  const symbol = symbolAt(tables, difference);
  return symbol === undefined ? [] : symbol.references.map((id) => tables.references[id]);
}

const isWritten = ({ flags }) => flags.includes('Write');

// Whether each use that reads belongs to a change of the name by itself: `a++`, `a += 1`, `a = a + 1`.
function updatesItself(difference, tables, text) {
  const uses = usesOf(tables, difference);
  const lines = new Set(uses.filter(isWritten).map(({ span }) => span.line));
  const inOwn = uses.filter((use) => !isWritten(use)).every(({ span }) => lines.has(span.line));
  return uses.some(isWritten) && (inOwn || text.includes(`${uses[0].name} = `));
}

// What stands behind a place, to the end of its line.
function behind(text, { line, column }) {
  return [...text.split(/\r\n|[\n\r\u2028\u2029]/)[line - 1]].slice(column - 1).join('');
}

function isParameterByDefault(difference, text, tables) {
  const symbol = symbolAt(tables, difference);
  if (symbol === undefined || tables.nodes[symbol.node].kind !== 'FormalParameter') {
    return false;
  }
  const rest = behind(text, difference);
  return difference.side === 'there' ? /^[\w$]+\s*=(?![=>])/.test(rest) : rest.includes('=');
}

// Whether a variable holds a function and all its uses stand in it.
function usesItself(difference, tables, text) {
  const uses = usesOf(tables, difference);
  const rest = behind(text, difference);
  return uses.length > 0 && /^[\w$]+\s*=\s*(?:async\b|function\b|\()/.test(rest);
}

function isOfCatch(difference, tables) {
  const symbol = symbolAt(tables, difference);
  return [symbol, ...(symbol?.redeclarations ?? [])].some((one) => one?.flags.includes('CatchVariable'));
}

function isInEval(difference, { scopes, ...tables }) {
  const symbol = symbolAt(tables, difference);
  return symbol !== undefined && scopes[symbol.scope].flags.includes('DirectEval');
}

const nameIn = (message) => /'([^']*)'/.exec(message)[1];

function isOfBlock({ message }, text) {
  return new RegExp(`\\{\\s*function\\s+${nameIn(message).replace(/\$/g, '\\$')}\\b`).test(text);
}

// `example` is a file's name and its text, in which all differences are of the kind.
const KINDS = {
  'used by what is unused': {
    example: ['a.js', 'function one() { other(); }\nfunction other() { one(); }\n'],
    why: 'here also what only unused functions and classes use is told, and what use each other alone',
    holds: ({ side, message }) => side === 'here' && message.endsWith('is used only by what is never used'),
  },
  eval: {
    example: ['a.js', '(function () { var seen = 1; eval(""); })();\n'],
    why: 'here all that a direct call of `eval` may name is in use',
    holds: (difference, text, tables) => difference.side === 'there' && isInEval(difference, tables),
  },
  'function in a block': {
    example: ['a.js', '{ function f() {} }\nf();\n'],
    why: 'in sloppy code its name is that of the function or program around, here as in the Standard; there it is the block\'s alone',
    holds: (difference, text) => isOfBlock(difference, text),
  },
  'parameter with a default': {
    example: ['a.mjs', 'export function f(a, b = 1) { return 1; }\n'],
    why: 'there it counts as used for the parameters before it, and is told itself whatever stands behind it',
    holds: (difference, text, tables) => difference.rule === 'no-unused' && isParameterByDefault(difference, text, tables),
  },
  'name of catch': {
    example: ['a.js', 'try {} catch (e) { var e = 1; }\n'],
    why: 'a `var` with the name of a parameter of `catch` is one symbol with it here; there are two',
    holds: (difference, text, tables) => isOfCatch(difference, tables),
  },
  'changes itself': {
    example: ['a.mjs', 'let a = 0; a++;\nlet b = 0; b += 1;\nlet c = 0; c = c + 1;\n'],
    why: 'there `a++`, `a += 1` and `a = a + 1` as statements use nothing; here they read what they change',
    holds: (difference, text, tables) => difference.side === 'there' && difference.rule === 'no-unused' && updatesItself(difference, tables, text),
  },
  'function of a variable': {
    example: ['a.mjs', 'const f = function () { f(); };\n'],
    why: 'there a variable that holds a function isn\'t used by that function; here only function and class declarations are asked',
    holds: (difference, text, tables) => difference.side === 'there' && usesItself(difference, tables, text),
  },
  JSX: {
    example: ['a.jsx', 'import Part from "./part.js";\nexport default () => <Part />;\n'],
    why: 'here the name of an element is a use; there a rule of a plug-in says so',
    holds: ({ side, rule, message }, text) => side === 'there' && rule === 'no-unused' && text.includes(`<${nameIn(message)}`),
  },
  'loop that returns': {
    example: ['a.js', 'for (var k in {}) { return; }\n'],
    why: 'there the name of a `for-in` that only returns is used',
    holds: (difference, text) => difference.side === 'here' && /^[\w$]+\s+in\b.*\breturn\b/.test(behind(text, difference)),
  },
};

const UNKNOWN = 'unknown';

// The first kind that a difference is of.
function kindOf(difference, text, tables) {
  return Object.keys(KINDS).find((kind) => KINDS[kind].holds(difference, text, tables)) ?? UNKNOWN;
}

module.exports = { KINDS, UNKNOWN, kindOf };
