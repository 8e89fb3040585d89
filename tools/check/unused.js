'use strict';
// The rule no-unused: of the symbols that nothing in use uses, those that people want to hear of.

// What a declaring node declares, by its kind.
const DECLARED = new Map([
  ['FormalParameter', 'parameter'],
  ['FormalParameterRest', 'parameter'],
  ['CatchParameter', 'caught'],
  ['Function', 'function'],
  ['Class', 'class'],
  ['ImportSpecifier', 'import'],
  ['ImportDefaultSpecifier', 'import'],
  ['ImportNamespaceSpecifier', 'import'],
  ['TSImportEqualsDeclaration', 'import'],
  ['TSTypeParameter', 'type parameter'],
  ['TSMappedType', 'type parameter'],
  ['TSTypeAliasDeclaration', 'type'],
  ['TSInterfaceDeclaration', 'interface'],
  ['TSEnumDeclaration', 'enum'],
  ['TSNamespaceDeclaration', 'namespace'],
]);

const FUNCTIONS = new Set(['Function', 'ArrowFunctionExpression']);
const BODILESS = new Set(['ts-declare', 'ts-empty-body']);
const PROPERTY_MARKS = ['public', 'private', 'protected', 'readonly', 'override'];

// What a symbol is called in a message: most declarations are variables.
function kindOf(row) {
  return DECLARED.get(row.kind) || 'variable';
}

// The node that has the parameters: a function, or a type of one.
function ownerOf(tree, node) {
  return tree.parent(tree.parent(node));
}

// Whether the parameter belongs to a signature: nothing could use it.
function isOfSignature(tree, owner) {
  const { kind, text } = tree.row(owner);
  return !FUNCTIONS.has(kind) || BODILESS.has(text);
}

// A setter has to have its parameter.
function isOfSetter(tree, owner) {
  const method = tree.parent(owner);
  return method !== null && tree.row(owner).role === 'value' && tree.row(method).text === 'set';
}

// A plain parameter is its node's only name; one with a default or in a pattern isn't.
function isPlain(tree, { node, span }) {
  const { kind, span: whole } = tree.row(node + 1);
  return kind === 'BindingIdentifier' && whole.start === span.start;
}

// Where the last parameter begins that something uses, of those in a list behind the first symbol. Symbols are numbered as they are
// declared, so that those of what stands in a list come one behind the other.
function lastUsedBehind(first, list, answers) {
  const { tree } = answers;
  const { end } = tree.row(list).span;
  let last = 0;
  for (let id = first.id + 1; id < answers.entries.symbolCount; id += 1) {
    const { node, span, references } = answers.symbol(id);
    if (span.start >= end) {
      break;
    }
    if (references.length > 0 && kindOf(tree.row(node)) === 'parameter' && tree.parent(node) === list) {
      last = span.start;
    }
  }
  return last;
}

// Whether a parameter stands before one of the same function that something uses. Those of a list are asked for in order.
function isBeforeUsed(symbol, answers) {
  const list = answers.tree.parent(symbol.node);
  const lastUsed = answers.kept('parameters', () => new Map());
  if (!lastUsed.has(list)) {
    lastUsed.set(list, lastUsedBehind(symbol, list, answers));
  }
  return lastUsed.get(list) > symbol.span.start;
}

// A parameter of a constructor that is a property of its class, too, is for whoever has an object of it.
function isProperty(tree, node) {
  const { kind, marks } = tree.row(node);
  return kind === 'FormalParameter' && marks.some((mark) => PROPERTY_MARKS.includes(mark));
}

function isToldParameter(symbol, answers, options) {
  const { tree } = answers;
  const owner = ownerOf(tree, symbol.node);
  if (options.args === 'none' || isOfSignature(tree, owner) || isOfSetter(tree, owner) || isProperty(tree, symbol.node)) {
    return false;
  }
  return options.args === 'all' || !isPlain(tree, symbol) || !isBeforeUsed(symbol, answers);
}

// The name of a class expression is for who reads its stack traces.
const isToldClass = (symbol, { tree }) => tree.row(symbol.node).text !== 'expression';

// What JSX means without naming it: React, or what a comment names.
function jsxFactory(text) {
  return /@jsx\s+([\p{ID_Start}$_][\p{ID_Continue}$]*)/u.exec(text)?.[1] ?? 'React';
}

// No string has such a text in it, since its quotes would stand behind backslashes.
const hasJsx = ({ tree }) => tree.rows.json.includes('","JSX');

function isToldImport(symbol, answers) {
  const factory = answers.kept('factory', () => jsxFactory(answers.text));
  return symbol.name !== factory || !answers.kept('jsx', () => hasJsx(answers));
}

// Whether a symbol of this kind is told.
const TOLD = new Map([
  ['parameter', isToldParameter],
  ['class', isToldClass],
  ['import', isToldImport],
  ['caught', (symbol, answers, options) => options.caught],
  // The key of a mapped type has to have a name.
  ['type parameter', (symbol, { tree }) => tree.row(symbol.node).kind !== 'TSMappedType'],
]);

// Whether a symbol or what stands around it is only declared here and stands for something elsewhere.
function isAmbient(symbol, answers) {
  const { tree } = answers;
  const ambient = tree.isTyped ? answers.kept('ambient', () => new Set(tree.rows.marked('declare'))) : null;
  if (ambient === null || ambient.size === 0) {
    return false;
  }
  let node = symbol.node;
  while (node !== null && !ambient.has(node)) {
    node = tree.parent(node);
  }
  return node !== null;
}

function isLeftOut(symbol, answers, options) {
  const { ignore, vars, exported } = options;
  const isGlobal = symbol.scope === 0 && answers.tree.goal === 'script';
  return ignore.test(symbol.name) || (isGlobal && (vars === 'local' || exported.has(symbol.name)));
}

function isTold(symbol, answers, options) {
  const told = TOLD.get(kindOf(answers.tree.row(symbol.node)));
  return !isLeftOut(symbol, answers, options) && !isAmbient(symbol, answers) && (told === undefined || told(symbol, answers, options));
}

// How far the symbol is from being used.
function unusedHow(symbol, answers) {
  if (symbol.references.length === 0) {
    return 'is never used';
  }
  const reads = symbol.references.some((id) => answers.reference(id).flags.some((flag) => flag !== 'Write'));
  return reads ? 'is used only by what is never used' : 'is assigned a value but never used';
}

function* unused(answers, { ignore, ...options }, exported) {
  const found = answers.namesOf('unused');
  if (found.length === 0 || answers.tree.lang === 'dts') {
    return;
  }
  const read = { ...options, exported, ignore: new RegExp(ignore || '(?!)', 'u') };
  for (const { id, name, span } of found) {
    const symbol = answers.symbol(id);
    if (isTold(symbol, answers, read)) {
      const kind = kindOf(answers.tree.row(symbol.node));
      yield { span, message: `${kind === 'caught' ? 'parameter' : kind} '${name}' ${unusedHow(symbol, answers)}` };
    }
  }
}

module.exports = { isProperty, unused };
