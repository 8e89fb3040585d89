'use strict';
// Functions, arrows and their parameters.

const { skipTrivia, openParenthesis, closingEnd, nameEnd } = require('../trivia');
const { kindOf } = require('../kinds');
const { visit, each, markOf, marksOf, marksOfTwo } = require('./visit');
const { addDeclarations } = require('./statements');

const isThis = (node) => node !== undefined && node.type === 'Identifier' && node.name === 'this';

// Where the search for `(` begins: behind what stands before it.
function beforeParameters(c, node) {
  if (node.typeParameters) return c.end(node.typeParameters);
  if (node.id) return c.end(node.id);
  return c.start(node);
}

// The span of a list of parameters: with its parentheses, or an arrow's single name.
function parametersSpan(c, params, from) {
  const open = openParenthesis(c.text, from);
  const last = params[params.length - 1];
  return [open, closingEnd(c.text, last ? c.end(last) : open + 1, ')')];
}

function arrowSpan(c, node) {
  if (node.typeParameters) return parametersSpan(c, node.params, c.end(node.typeParameters));
  let start = c.start(node);
  if (node.async) start = skipTrivia(c.text, nameEnd(c.text, start));
  if (c.text[start] === '(') return parametersSpan(c, node.params, start);
  return [c.start(node.params[0]), c.end(node.params[0])];
}

const NO_DECORATORS = [];

// A parameter begins at its decorators, which some dialects leave out of its span.
function openParameter(c, role, kind, node, decorators, marks) {
  const start = decorators.length > 0 ? Math.min(c.start(decorators[0]), node.start) : node.start;
  c.writer.open(role, kind, start, node.end, '', marks);
  each(c, 'decorators', decorators, 'decorator');
}

const REST = kindOf('FormalParameterRest');
function restParameter(c, role, node) {
  openParameter(c, role, REST, node, node.decorators || NO_DECORATORS);
  visit.bindingRest(c, 'rest', node);
  each(c, 'type', node.typeAnnotation, 'typeAnnotation');
  c.close();
}

// Of a parameter that declares a property.
function propertyMarks({ accessibility, readonly, override }, optional) {
  return marksOf({ [accessibility]: accessibility, readonly, override, optional });
}

const PARAMETER = kindOf('FormalParameter');
function parameter(c, role, outer) {
  const inner = outer.type === 'TSParameterProperty' ? outer.parameter : outer;
  const withDefault = inner.type === 'AssignmentPattern';
  const pattern = withDefault ? inner.left : inner;
  const optional = pattern.optional || inner.optional;
  const marks = inner === outer ? markOf('optional', optional) : propertyMarks(outer, optional);
  openParameter(c, role, PARAMETER, outer, outer.decorators || inner.decorators || NO_DECORATORS, marks);
  visit.binding(c, 'pattern', pattern);
  each(c, 'type', pattern.typeAnnotation, 'typeAnnotation');
  each(c, 'initializer', withDefault ? inner.right : null, 'expression');
  c.close();
}

const PARAMETERS = kindOf('FormalParameters');
function formalParameters(c, [start, end], text, params) {
  c.writer.open('params', PARAMETERS, start, end, text);
  for (const param of params) {
    if (param.type === 'RestElement') restParameter(c, 'rest', param);
    else parameter(c, 'items', param);
  }
  c.writer.close();
}

// Type parameters, `this`, parameters and return type. The list of parameters begins at or after `from`.
visit.signature = (c, node, text, from = beforeParameters(c, node)) => {
  const params = node.params || node.parameters;
  each(c, 'typeParameters', node.typeParameters, 'typeParameters');
  const span = parametersSpan(c, params, from);
  const first = isThis(params[0]) ? 1 : 0;
  if (first === 1) {
    c.open('this', 'TSThisParameter', params[0]);
    each(c, 'type', params[0].typeAnnotation, 'typeAnnotation');
    c.close();
  }
  formalParameters(c, span, text, params.slice(first));
  each(c, 'returnType', node.returnType || node.typeAnnotation, 'typeAnnotation');
};

const BODY = kindOf('FunctionBody');
function functionBody(c, node) {
  if (!node) return;
  c.writer.open('body', BODY, node.start, node.end);
  c.within(false, visit.body, node);
  c.writer.close();
}

function functionMarks({ async, generator, declare }, pure) {
  if (declare || pure) return marksOf({ async, generator, declare, pure });
  return marksOfTwo('async', async, 'generator', generator);
}

// A function with the text given; its list of parameters is unique where it is a method's.
const FUNCTION = kindOf('Function');
function writeFunction(c, role, node, { text, list = 'formal', start = node.start }) {
  const pure = text !== 'ts-empty-body' && c.annotations.takesNoSideEffects(start);
  const marks = functionMarks(node, pure);
  c.writer.open(role, FUNCTION, start, node.end, text, marks);
  if (list === 'formal') each(c, 'id', node.id, 'bindingName');
  visit.signature(c, node, list, list === 'formal' ? undefined : afterTypes(c, node, start));
  functionBody(c, node.body);
  c.writer.close();
}

const afterTypes = (c, node, start) => (node.typeParameters ? c.end(node.typeParameters) : start);

visit.functionDeclaration = (c, role, node) => writeFunction(c, role, node, { text: node.body ? 'declaration' : 'ts-declare' });
visit.functionExpression = (c, role, node) => writeFunction(c, role, node, { text: 'expression' });
// The value of a method, which begins at its list of parameters or of type parameters.
visit.methodValue = (c, role, node, start = c.start(node)) => {
  writeFunction(c, role, node, { text: node.body ? 'expression' : 'ts-empty-body', list: 'unique', start });
};

visit.arrow = (c, role, node) => {
  const marks = functionMarks({ async: node.async }, c.annotations.takesNoSideEffects(c.start(node)));
  c.open(role, 'ArrowFunctionExpression', node, '', marks);
  each(c, 'typeParameters', node.typeParameters, 'typeParameters');
  formalParameters(c, arrowSpan(c, node), 'arrow', node.params);
  each(c, 'returnType', node.returnType, 'typeAnnotation');
  if (node.body.type === 'BlockStatement') functionBody(c, node.body);
  else visit.expression(c, 'body', node.body);
  c.close();
};

addDeclarations({ FunctionDeclaration: visit.functionDeclaration, TSDeclareFunction: visit.functionDeclaration });
