'use strict';
// Statements, directives and declarations of variables.

const { kindOf } = require('../kinds');
const { visit, each, plain, byType, markOf } = require('./visit');

// Babel says of no statement in a namespace that it is a directive.
function isDirective(node, outer) {
  if (node.type !== 'ExpressionStatement') return false;
  if (typeof node.directive === 'string') return true;
  const { type, extra = {} } = node.expression;
  return outer.type === 'TSModuleBlock' && type === 'StringLiteral' && !extra.parenthesized;
}

function directive(c, role, node) {
  const literal = node.expression || node.value;
  const raw = c.text.slice(c.start(literal) + 1, c.end(literal) - 1);
  c.open(role, 'Directive', node, raw);
  const value = node.expression ? literal.value : (literal.extra && literal.extra.expressionValue) || literal.value;
  visit.literal(c, 'expression', { ...literal, type: 'StringLiteral', value });
  c.close();
}

// The statements of a program, function or module, its directives first. Babel lists these apart.
visit.body = (c, node) => {
  each(c, 'directives', node.directives, 'directive');
  let at = 0;
  while (at < node.body.length && isDirective(node.body[at], node)) directive(c, 'directives', node.body[at++]);
  for (; at < node.body.length; at++) visit.statement(c, 'body', node.body[at]);
};
visit.directive = directive;

const BLOCK = kindOf('BlockStatement');
visit.block = (c, role, node) => {
  const { body } = node;
  c.writer.open(role, BLOCK, node.start, node.end);
  for (let i = 0; i < body.length; i++) visit.statement(c, 'body', body[i]);
  c.writer.close();
};

const EXPRESSION = kindOf('ExpressionStatement');
function expressionStatement(c, role, node) {
  c.writer.open(role, EXPRESSION, node.start, node.end);
  visit.expression(c, 'expression', node.expression);
  c.writer.close();
}

const IF = kindOf('IfStatement');
function ifStatement(c, role, node) {
  c.writer.open(role, IF, node.start, node.end);
  visit.expression(c, 'test', node.test);
  visit.statement(c, 'consequent', node.consequent);
  if (node.alternate) visit.statement(c, 'alternate', node.alternate);
  c.writer.close();
}

function forOf(c, role, node) {
  c.open(role, 'ForOfStatement', node, '', markOf('await', node.await));
  visit.loopLeft(c, 'left', node.left);
  visit.expression(c, 'right', node.right);
  visit.statement(c, 'body', node.body);
  c.close();
}

const VARIABLES = kindOf('VariableDeclaration');
visit.variables = (c, role, node) => {
  const { start, end, kind, declarations } = node;
  const [first] = declarations;
  if (kind === 'const' && first.init) c.annotations.passOn(start, first.init.start);
  c.writer.open(role, VARIABLES, start, end, kind, markOf('declare', node.declare));
  for (let i = 0; i < declarations.length; i++) visit.declarator(c, 'declarators', declarations[i]);
  c.writer.close();
};

const DECLARATOR = kindOf('VariableDeclarator');
visit.declarator = (c, role, node) => {
  const { id, init } = node;
  c.writer.open(role, DECLARATOR, node.start, node.end, '', markOf('definite', node.definite));
  visit.binding(c, 'id', id);
  if (id.typeAnnotation) visit.typeAnnotation(c, 'type', id.typeAnnotation);
  if (init) visit.expression(c, 'init', init);
  c.writer.close();
};

const isVariables = (node) => node.type === 'VariableDeclaration';
visit.loopInit = (c, role, node) => visit[isVariables(node) ? 'variables' : 'expression'](c, role, node);
visit.loopLeft = (c, role, node) => visit[isVariables(node) ? 'variables' : 'target'](c, role, node);

function catchClause(c, role, node) {
  c.open(role, 'CatchClause', node);
  if (node.param) {
    c.open('param', 'CatchParameter', node.param);
    visit.binding(c, 'pattern', node.param);
    each(c, 'type', node.param.typeAnnotation, 'typeAnnotation');
    c.close();
  }
  visit.block(c, 'body', node.body);
  c.close();
}
visit.catchClause = catchClause;
visit.switchCase = plain('SwitchCase', { test: 'expression', consequent: 'statement' });

// A program may have it outside of functions; a static block never has.
const RETURN = kindOf('ReturnStatement');
function returnStatement(c, role, node) {
  if (c.isInStaticBlock) c.refuse(node, "'return' outside of function");
  c.writer.open(role, RETURN, node.start, node.end);
  if (node.argument) visit.expression(c, 'argument', node.argument);
  c.writer.close();
}

const STATEMENTS = {
  BlockStatement: visit.block,
  EmptyStatement: plain('EmptyStatement'),
  DebuggerStatement: plain('DebuggerStatement'),
  ExpressionStatement: expressionStatement,
  IfStatement: ifStatement,
  DoWhileStatement: plain('DoWhileStatement', { body: 'statement', test: 'expression' }),
  WhileStatement: plain('WhileStatement', { test: 'expression', body: 'statement' }),
  ForStatement: plain('ForStatement', { init: 'loopInit', test: 'expression', update: 'expression', body: 'statement' }),
  ForInStatement: plain('ForInStatement', { left: 'loopLeft', right: 'expression', body: 'statement' }),
  ForOfStatement: forOf,
  ContinueStatement: plain('ContinueStatement', { label: 'label' }),
  BreakStatement: plain('BreakStatement', { label: 'label' }),
  ReturnStatement: returnStatement,
  WithStatement: plain('WithStatement', { object: 'expression', body: 'statement' }),
  SwitchStatement: plain('SwitchStatement', { discriminant: 'expression', cases: 'switchCase' }),
  LabeledStatement: plain('LabeledStatement', { label: 'label', body: 'statement' }),
  ThrowStatement: plain('ThrowStatement', { argument: 'expression' }),
  TryStatement: plain('TryStatement', { block: 'block', handler: 'catchClause', finalizer: 'block' }),
};

// Those that may be exported.
const DECLARATIONS = {};

// Other families add theirs, which are statements, too.
function addDeclarations(visitors) {
  Object.assign(DECLARATIONS, visitors);
  Object.assign(STATEMENTS, visitors);
}
addDeclarations({ VariableDeclaration: visit.variables });

visit.declaration = byType(DECLARATIONS, 'a declaration');

// Most statements are of these types, for which the table isn't asked.
visit.statement = (c, role, node) => {
  const type = node.type;
  switch (type) {
    case 'ExpressionStatement': return expressionStatement(c, role, node);
    case 'IfStatement': return ifStatement(c, role, node);
    case 'VariableDeclaration': return visit.variables(c, role, node);
    case 'ReturnStatement': return returnStatement(c, role, node);
    case 'BlockStatement': return visit.block(c, role, node);
    default: return rareStatement(c, role, node, type);
  }
};

function rareStatement(c, role, node, type) {
  const visitor = STATEMENTS[type];
  if (visitor === undefined) c.refuse(node, `${type} can't be a statement`);
  visitor(c, role, node);
}

module.exports = { STATEMENTS, addDeclarations };
