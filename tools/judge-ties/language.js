'use strict';
// What ECMAScript binds where, by the rows of a program: crates/language_ties/specs, put into JavaScript by hand.

// The nodes of rows, in preorder, each with its parent and children.
function nodesOf(rows) {
  const path = [];
  return rows.map(([depth, role, kind, start, end, text, marks], id) => {
    const node = { id, role, kind, span: [start, end], text, marks, children: [], parent: depth === 0 ? null : path[depth - 1] };
    path[depth] = node;
    if (node.parent !== null) node.parent.children.push(node);
    return node;
  });
}

const childOf = (role, node) => node.children.find((child) => child.role === role);
const isDeclaration = ({ text }) => text === 'declaration' || text === 'ts-declare';

// Whether a list of parameters has an expression: an initializer or a computed key (15.1.2, ContainsExpression).
function containsExpression({ children }) {
  const isOne = ({ role, kind, marks }) => role === 'initializer' || kind === 'AssignmentPattern' || (kind === 'BindingProperty' && marks.includes('computed'));
  return children.some((child) => isOne(child) || containsExpression(child));
}

// The environments that a function makes round its body or, in the header, round its parameters.
function functionEnvironments(node, child, parameters) {
  const isHeader = child.kind === 'FormalParameters' || child.role === 'id';
  const body = !isHeader && containsExpression(childOf('params', node)) ? ['Body'] : [];
  return [...body, ...parameters];
}

// The kinds of the environments that a node makes round a child, innermost first.
function environmentsRound(node, child) {
  switch (node.kind) {
    case 'Program':
      return ['Global'];
    case 'Function':
      return functionEnvironments(node, child, ['Parameters', 'OwnName']);
    case 'ArrowFunctionExpression':
      return functionEnvironments(node, child, ['ArrowParameters']);
    case 'StaticBlock':
      return ['StaticBlock'];
    case 'BlockStatement':
      return ['Block'];
    case 'SwitchStatement':
      return child.kind === 'SwitchCase' ? ['Block'] : [];
    case 'ForStatement':
    case 'ForInStatement':
    case 'ForOfStatement':
      return ['Loop'];
    case 'CatchClause':
      return ['Catch'];
    case 'Class':
      return child.kind === 'Decorator' ? [] : ['Class'];
    case 'WithStatement':
      return child.role === 'body' ? ['Object'] : [];
    default:
      return [];
  }
}

// The environments round a place, innermost first. A function that is the body of an `if` stands in a block of its own (B.3.3).
function environmentsAt(node) {
  const found = [];
  for (let child = node; child.parent !== null; child = child.parent) {
    const { parent } = child;
    if (parent.kind === 'IfStatement' && child.kind === 'Function' && isDeclaration(child)) found.push({ kind: 'IfBody', opener: child.id });
    for (const kind of environmentsRound(parent, child)) found.push({ kind, opener: parent.id });
  }
  return found;
}

const sameEnvironment = (left, right) => left.kind === right.kind && left.opener === right.opener;
const TAKES_VARIABLES = ['Global', 'Parameters', 'ArrowParameters', 'Body', 'StaticBlock'];
const takesVariables = ({ kind }) => TAKES_VARIABLES.includes(kind);
const isBlock = (environment) => !takesVariables(environment);

// What makes the code in it strict: a class, or a directive (11.2.2).
const hasDirective = ({ children }) => children.some(({ kind, text }) => kind === 'Directive' && text === 'use strict');

function makesStrict(node) {
  switch (node.kind) {
    case 'Class':
      return true;
    case 'Program':
      return hasDirective(node);
    case 'Function':
    case 'ArrowFunctionExpression':
      return node.children.some((child) => child.role === 'body' && hasDirective(child));
    default:
      return false;
  }
}

function isStrictAt(node, isModule) {
  for (let at = node.parent; at !== null; at = at.parent) if (makesStrict(at)) return true;
  return isModule;
}

const PATTERN_ROLES = {
  ObjectPattern: ['properties', 'rest'],
  BindingProperty: ['value'],
  ArrayPattern: ['elements', 'rest'],
  AssignmentPattern: ['left'],
  BindingRestElement: ['argument'],
};

// The binding identifiers of a pattern (8.2.1, BoundNames).
function boundNames(node) {
  if (node.kind === 'BindingIdentifier') return [node];
  const roles = PATTERN_ROLES[node.kind] || [];
  return node.children.filter(({ role }) => roles.includes(role)).flatMap(boundNames);
}

const namesAt = (node, role) => node.children.filter((child) => child.role === role).flatMap(boundNames);

// How a variable goes outward: past these environments, to that one.
function outward(environments) {
  const at = environments.findIndex(takesVariables);
  return { passed: environments.slice(0, at), target: environments[at] };
}

// A bound name: its identifier, the environment that binds it, others that do so too, and those that a variable passes.
function bound(sort, identifier, environment, more = {}) {
  return { sort, identifier: identifier.id, name: identifier.text, environment, also: [], passed: [], ...more };
}

function declaratorNames(node) {
  const environments = environmentsAt(node);
  const { passed, target } = outward(environments);
  const isVar = node.parent.text === 'var';
  return namesAt(node, 'id').map((id) => (isVar ? bound('Var', id, target, { passed }) : bound('Lexical', id, environments[0])));
}

const isPlain = ({ marks }) => !marks.includes('async') && !marks.includes('generator');

function functionNames(node, isModule) {
  if (!isDeclaration(node)) return namesAt(node, 'id').map((id) => bound('OwnName', id, { kind: 'OwnName', opener: node.id }));
  const environments = environmentsAt(node);
  const isMovable = isBlock(environments[0]) && isPlain(node) && !isStrictAt(node, isModule);
  const { passed, target } = outward(environments);
  return namesAt(node, 'id').map((id) => bound('Function', id, environments[0], isMovable ? { also: [target], passed } : {}));
}

function classNames(node) {
  const own = { kind: 'Class', opener: node.id };
  if (!isDeclaration(node)) return namesAt(node, 'id').map((id) => bound('OwnName', id, own));
  return namesAt(node, 'id').map((id) => bound('Lexical', id, environmentsAt(node)[0], { also: [own] }));
}

function catchNames(node) {
  const pattern = childOf('pattern', node);
  const sort = pattern.kind === 'BindingIdentifier' ? 'CatchName' : 'Lexical';
  return boundNames(pattern).map((id) => bound(sort, id, environmentsAt(node)[0]));
}

// What a node binds, before it is known which functions stay in their blocks.
function writtenAt(node, isModule) {
  switch (node.kind) {
    case 'VariableDeclarator':
      return declaratorNames(node);
    case 'Function':
      return functionNames(node, isModule);
    case 'Class':
      return classNames(node);
    case 'FormalParameter':
      return namesAt(node, 'pattern').map((id) => bound('Parameter', id, environmentsAt(node)[0]));
    case 'FormalParameterRest':
      return node.children.filter(({ role }) => role === 'rest').flatMap(boundNames).map((id) => bound('Parameter', id, environmentsAt(node)[0]));
    case 'CatchParameter':
      return catchNames(node);
    case 'ImportSpecifier':
    case 'ImportDefaultSpecifier':
    case 'ImportNamespaceSpecifier':
      return namesAt(node, 'local').map((id) => bound('Lexical', id, environmentsAt(node)[0]));
    default:
      return [];
  }
}

// Whether a name is bound lexically in the environment, so that a variable of it may not pass or end there.
function isLexicalIn(other, environment) {
  return sameEnvironment(other.environment, environment) && (other.sort === 'Lexical' || (other.sort === 'Function' && isBlock(environment)));
}

// Whether the other is why a function stays in its block: a variable of its name would be an early error, or is a parameter's
// (B.3.2.1). V8 takes a function past functions in blocks around it.
function bars(one, other, asV8) {
  if (other.identifier === one.identifier || other.name !== one.name) return false;
  if (asV8 && other.sort === 'Function') return false;
  const [target] = one.also;
  return [...one.passed, target].some((environment) => isLexicalIn(other, environment)) || (other.sort === 'Parameter' && other.environment.opener === target.opener);
}

const mayMove = ({ sort, also }) => sort === 'Function' && also.length > 0;

// The bound names of each name.
function byName(all) {
  const named = new Map();
  for (const one of all) {
    if (!named.has(one.name)) named.set(one.name, []);
    named.get(one.name).push(one);
  }
  return named;
}

// All that a program binds.
function boundBy(nodes, isModule, asV8) {
  const written = nodes.flatMap((node) => writtenAt(node, isModule));
  const named = byName(written);
  const isBarred = (one) => mayMove(one) && named.get(one.name).some((other) => bars(one, other, asV8));
  return written.map((one) => (isBarred(one) ? { ...one, also: [] } : one));
}

// Whether a variable of the name passes an environment, or ends in one, that binds it lexically: an early error.
function clashes(all, name) {
  const named = all.filter((one) => one.name === name);
  return named.some((one) => one.sort === 'Var' && named.some((other) => [...one.passed, one.environment].some((environment) => isLexicalIn(other, environment))));
}

const isBoundIn = (one, environment) => [one.environment, ...one.also].some((own) => sameEnvironment(own, environment));

// What a name means among the environments: null where none binds it, the name `Object` where an object may have it.
function meaning(all, environments, name) {
  const named = all.filter((one) => one.name === name);
  for (const environment of environments) {
    if (environment.kind === 'Object') return { environment, identifiers: null };
    const identifiers = named.filter((one) => isBoundIn(one, environment)).map(({ identifier }) => identifier);
    if (identifiers.length > 0) return { environment, identifiers };
    if (name === 'arguments' && environment.kind === 'Parameters') return { environment, identifiers };
  }
  return null;
}

// The identifier references with what they mean.
function meanings(rows, { isModule = false, asV8 = false } = {}) {
  const nodes = nodesOf(rows);
  const all = boundBy(nodes, isModule, asV8);
  const used = nodes.filter(({ kind }) => kind === 'IdentifierReference');
  return { nodes, all, references: used.map((node) => ({ node: node.id, name: node.text, meaning: meaning(all, environmentsAt(node), node.text) })) };
}

module.exports = { meanings, clashes, environmentsAt, meaning };
