'use strict';
// Functions, arrows and their parameters.

const { skipTrivia, closingEnd } = require('../trivia');
const { visit, each, marksOf } = require('./visit');
const { decoratorsOf, modifierMarks } = require('./modifiers');
const { DECLARATIONS } = require('./statements');

const isThis = (c, node) => node !== undefined && node.name.kind === c.kinds.Identifier && c.ts.idText(node.name) === 'this';

// The span of a list of parameters: with its parentheses, or an arrow's single name.
function parametersSpan(c, node) {
  const { parameters } = node;
  const [first] = parameters;
  const words = node.modifiers && node.modifiers.length ? skipTrivia(c.text, node.modifiers.end) : c.start(node);
  if (first && node.typeParameters === undefined && c.isArrow(node) && words === c.start(first)) return [c.start(first), first.end];
  return [parameters.pos - 1, closingEnd(c.text, parameters.end, ')')];
}

function restParameter(c, role, node) {
  if (node.initializer) c.refuse(node.initializer, 'A rest parameter cannot have an initializer.');
  if (node.questionToken) c.refuse(node.questionToken, 'A rest parameter cannot be optional.');
  modifierMarks(c, node, []);
  c.open(role, 'FormalParameterRest', node);
  each(c, 'decorators', decoratorsOf(c, node), 'decorator');
  visit.bindingRest(c, 'rest', node);
  each(c, 'type', node.type, 'typeAnnotation');
  c.close();
}

const PARAMETER_MARKS = ['public', 'private', 'protected', 'readonly', 'override'];

function parameter(c, role, node) {
  const marks = modifierMarks(c, node, PARAMETER_MARKS);
  if (node.questionToken) marks.push('optional');
  c.open(role, 'FormalParameter', node, '', marks);
  each(c, 'decorators', decoratorsOf(c, node), 'decorator');
  visit.binding(c, 'pattern', node.name);
  each(c, 'type', node.type, 'typeAnnotation');
  each(c, 'initializer', node.initializer, 'expression');
  c.close();
}

function thisParameter(c, node) {
  c.open('this', 'TSThisParameter', node);
  each(c, 'type', node.type, 'typeAnnotation');
  c.close();
}

function formalParameters(c, node, text, first) {
  const { parameters } = node;
  const [start, end] = parametersSpan(c, node);
  c.openAt('params', 'FormalParameters', start, end, text);
  for (let i = first; i < parameters.length; i++) {
    if (!parameters[i].dotDotDotToken) parameter(c, 'items', parameters[i]);
    else if (i < parameters.length - 1) c.refuse(parameters[i], 'A rest parameter must be last in a parameter list.');
    else restParameter(c, 'rest', parameters[i]);
  }
  c.close();
}

// Type parameters, `this`, parameters and return type.
visit.signature = (c, node, text) => {
  each(c, 'typeParameters', node.typeParameters && [node.typeParameters], 'typeParameters');
  const first = isThis(c, node.parameters[0]) ? 1 : 0;
  if (first === 1 && text === 'arrow') c.refuse(node.parameters[0], "An arrow function cannot have a 'this' parameter.");
  if (first === 1) thisParameter(c, node.parameters[0]);
  formalParameters(c, node, text, first);
  each(c, 'returnType', node.type, 'typeAnnotation');
};

function functionBody(c, node) {
  if (!node) return;
  c.open('body', 'FunctionBody', node);
  c.within(false, () => visit.body(c, node.statements));
  c.close();
}

function writeFunction(c, role, node, { text, start, allowed }) {
  const marks = modifierMarks(c, node, allowed);
  if (node.asteriskToken) marks.push('generator');
  if (c.annotations.takesNoSideEffects(start)) marks.push('pure');
  c.openAt(role, 'Function', start, node.end, text, marks);
  each(c, 'id', node.name, 'bindingName');
  visit.signature(c, node, 'formal');
  functionBody(c, node.body);
  c.close();
}

DECLARATIONS.FunctionDeclaration = (c, role, node, start) => {
  if (!node.body && !c.isTyped) c.refuse(node, 'Signature declarations can only be used in TypeScript files.');
  writeFunction(c, role, node, { text: node.body ? 'declaration' : 'ts-declare', start, allowed: ['async', 'declare'] });
};

visit.functionExpression = (c, role, node) => writeFunction(c, role, node, { text: 'expression', start: c.start(node), allowed: ['async'] });

// The value of a method, which begins at its list of parameters or of type parameters.
visit.methodValue = (c, role, node, isAsync) => {
  const list = node.typeParameters || node.parameters;
  if (!node.body && !c.isTyped) c.refuse(node, "'{' expected.");
  const marks = marksOf({ async: isAsync, generator: node.asteriskToken });
  c.openAt(role, 'Function', list.pos - 1, node.end, node.body ? 'expression' : 'ts-empty-body', marks);
  visit.signature(c, node, 'unique');
  functionBody(c, node.body);
  c.close();
};

visit.arrow = (c, role, node) => {
  const marks = modifierMarks(c, node, ['async']);
  if (c.annotations.takesNoSideEffects(c.start(node))) marks.push('pure');
  c.open(role, 'ArrowFunctionExpression', node, '', marks);
  visit.signature(c, node, 'arrow');
  if (node.body.kind === c.kinds.Block) functionBody(c, node.body);
  else visit.expression(c, 'body', node.body);
  c.close();
};
