'use strict';
// Statements, directives and declarations of variables. What is exported has `export` among its modifiers here, and a node
// round it in the tree.

const { Refusal } = require('../refusal');
const { skipTrivia } = require('../trivia');
const { visit, each, plain, byKind, marksOf } = require('./visit');
const { modifier, modifierMarks } = require('./modifiers');

const isDirective = (kinds, node) => node.kind === kinds.ExpressionStatement && node.expression.kind === kinds.StringLiteral;

function directive(c, role, node) {
  const literal = node.expression;
  c.open(role, 'Directive', node, c.text.slice(c.start(literal) + 1, literal.end - 1));
  visit.string(c, 'expression', literal);
  c.close();
}

// The statements of a program, function or module, its directives first.
visit.body = (c, statements) => {
  let at = 0;
  while (at < statements.length && isDirective(c.kinds, statements[at])) directive(c, 'directives', statements[at++]);
  for (; at < statements.length; at++) visit.statement(c, 'body', statements[at]);
};

visit.block = plain('BlockStatement', ['body', 'statements', 'statement']);

function kindOfVariables(c, list) {
  const { Let, Const, Using, AwaitUsing, BlockScoped } = c.ts.NodeFlags;
  const flags = list.flags & BlockScoped;
  if (Using !== undefined && flags === AwaitUsing) return 'await using';
  if (Using !== undefined && flags === Using) return 'using';
  if (flags === Const) return 'const';
  return flags === Let ? 'let' : 'var';
}

function declarator(c, role, node) {
  c.open(role, 'VariableDeclarator', node, '', marksOf({ definite: node.exclamationToken }));
  visit.binding(c, 'id', node.name);
  each(c, 'type', node.type, 'typeAnnotation');
  each(c, 'init', node.initializer, 'expression');
  c.close();
}

function writeVariables(c, role, list, { start, end, marks = [] }) {
  const kind = kindOfVariables(c, list);
  const [first] = list.declarations;
  if (first === undefined) c.refuse(list, 'Variable declaration list cannot be empty.');
  if (kind === 'const' && first.initializer) c.annotations.passOn(start, c.start(first.initializer));
  c.openAt(role, 'VariableDeclaration', start, end, kind, marks);
  for (const node of list.declarations) declarator(c, 'declarators', node);
  c.close();
}

const isVariables = (c, node) => node.kind === c.kinds.VariableDeclarationList;
const loopPart = (other) => (c, role, node) => {
  if (isVariables(c, node)) writeVariables(c, role, node, { start: c.start(node), end: node.end });
  else visit[other](c, role, node);
};
visit.loopInit = loopPart('expression');
visit.loopLeft = loopPart('target');

function forOf(c, role, node) {
  c.open(role, 'ForOfStatement', node, '', marksOf({ await: node.awaitModifier }));
  visit.loopLeft(c, 'left', node.initializer);
  visit.expression(c, 'right', node.expression);
  visit.substatement(c, 'body', node.statement);
  c.close();
}

function switchStatement(c, role, node) {
  c.open(role, 'SwitchStatement', node);
  visit.expression(c, 'discriminant', node.expression);
  each(c, 'cases', node.caseBlock.clauses, 'switchCase');
  c.close();
}
visit.switchCase = plain('SwitchCase', ['test', 'expression', 'expression'], ['consequent', 'statements', 'statement']);

visit.catchClause = (c, role, node) => {
  const declaration = node.variableDeclaration;
  c.open(role, 'CatchClause', node);
  if (declaration) {
    if (declaration.initializer) c.refuse(declaration.initializer, 'Catch clause variable cannot have an initializer.');
    c.open('param', 'CatchParameter', declaration);
    visit.binding(c, 'pattern', declaration.name);
    each(c, 'type', declaration.type, 'typeAnnotation');
    c.close();
  }
  visit.block(c, 'body', node.block);
  c.close();
};

// What stands on the next line is none of it, and the compiler puts an empty name there.
function throwStatement(c, role, node) {
  if (node.expression.pos === node.expression.end) throw new Refusal('Line break not permitted here.', c.start(node) + 'throw'.length);
  c.open(role, 'ThrowStatement', node);
  visit.expression(c, 'argument', node.expression);
  c.close();
}

// The compiler takes `let` for a declaration also where a line end makes it a name: behind a head or a label there is none.
visit.substatement = (c, role, node) => {
  const list = c.kindName(node) === 'VariableStatement' ? node.declarationList : null;
  const isLet = list !== null && kindOfVariables(c, list) === 'let' && list.declarations.length > 0;
  if (isLet && /[\n\r\u2028\u2029]/.test(c.text.slice(c.start(list), c.start(list.declarations[0])))) {
    c.refuse(list, '`let` before a line end is a name here.');
  }
  visit.statement(c, role, node);
};

// A program may have it outside of functions; a static block never has.
const plainReturn = plain('ReturnStatement', ['argument', 'expression', 'expression']);
function returnStatement(c, role, node) {
  if (c.isInStaticBlock) c.refuse(node, "'return' outside of function");
  plainReturn(c, role, node);
}

const STATEMENTS = {
  Block: visit.block,
  EmptyStatement: plain('EmptyStatement'),
  DebuggerStatement: plain('DebuggerStatement'),
  ExpressionStatement: plain('ExpressionStatement', ['expression', 'expression', 'expression']),
  IfStatement: plain('IfStatement', ['test', 'expression', 'expression'], ['consequent', 'thenStatement', 'substatement'],
    ['alternate', 'elseStatement', 'substatement']),
  DoStatement: plain('DoWhileStatement', ['body', 'statement', 'substatement'], ['test', 'expression', 'expression']),
  WhileStatement: plain('WhileStatement', ['test', 'expression', 'expression'], ['body', 'statement', 'substatement']),
  ForStatement: plain('ForStatement', ['init', 'initializer', 'loopInit'], ['test', 'condition', 'expression'],
    ['update', 'incrementor', 'expression'], ['body', 'statement', 'substatement']),
  ForInStatement: plain('ForInStatement', ['left', 'initializer', 'loopLeft'], ['right', 'expression', 'expression'],
    ['body', 'statement', 'substatement']),
  ForOfStatement: forOf,
  ContinueStatement: plain('ContinueStatement', ['label', 'label', 'label']),
  BreakStatement: plain('BreakStatement', ['label', 'label', 'label']),
  ReturnStatement: returnStatement,
  WithStatement: plain('WithStatement', ['object', 'expression', 'expression'], ['body', 'statement', 'substatement']),
  SwitchStatement: switchStatement,
  LabeledStatement: plain('LabeledStatement', ['label', 'label', 'label'], ['body', 'statement', 'substatement']),
  ThrowStatement: throwStatement,
  TryStatement: plain('TryStatement', ['block', 'tryBlock', 'block'], ['handler', 'catchClause', 'catchClause'],
    ['finalizer', 'finallyBlock', 'block']),
};

// Those that may be exported, which also get where they begin; other families add theirs.
const DECLARATIONS = {
  VariableStatement(c, role, node, start) {
    writeVariables(c, role, node.declarationList, { start, end: node.end, marks: modifierMarks(c, node, ['declare']) });
  },
};
const EXPORTED_BY_DEFAULT = new Set(['FunctionDeclaration', 'ClassDeclaration', 'InterfaceDeclaration']);

const statement = byKind(STATEMENTS, 'a statement');
const declaration = byKind(DECLARATIONS, 'a declaration');

function exported(c, role, node, word) {
  const byDefault = modifier(c, node, 'DefaultKeyword');
  if (byDefault && !EXPORTED_BY_DEFAULT.has(c.kindName(node))) c.refuse(byDefault, "A default export can't be this declaration.");
  const start = skipTrivia(c.text, (byDefault || word).end);
  c.annotations.passOn(c.start(node), start);
  c.open(role, byDefault ? 'ExportDefaultDeclaration' : 'ExportDeclaration', node);
  declaration(c, 'declaration', node, start);
  c.close();
}

visit.statement = (c, role, node) => {
  if (!(c.kindName(node) in DECLARATIONS)) return statement(c, role, node);
  const word = modifier(c, node, 'ExportKeyword');
  if (word) exported(c, role, node, word);
  else declaration(c, role, node, c.start(node));
};

module.exports = { STATEMENTS, DECLARATIONS, isDirective };
