'use strict';
// Reads JavaScript, JSX and TypeScript with Babel's parser, which stands alone or in Babel's bundle for browsers. Its tree is a
// dialect of ESTree.

const { Refusal } = require('../refusal');
const { refusalOf } = require('../newer');
const { isBefore, parsersFor } = require('../parsers');
const { write } = require('./estree');

// What Babel would refuse, and the analysis tells with both places.
const LEFT_TO_THE_ANALYSIS = new Set(['VarRedeclaration', 'ParamDupe']);

// What TypeScript's own compiler takes, too: an export of a type that is declared elsewhere.
const LEFT_IN_TYPESCRIPT = 'ModuleExportUndefined';

const NEWER = ['decoratorAutoAccessors', 'explicitResourceManagement', 'regexpUnicodeSets'];

function attributesFor(version) {
  return isBefore(version, '7.22') ? 'importAssertions' : ['importAttributes', { deprecatedAssertSyntax: true }];
}

function decoratorsFor(version) {
  return ['decorators', isBefore(version, '7.22') ? { version: '2022-03', decoratorsBeforeExport: false } : { version: '2023-05' }];
}

const isTyped = (lang) => lang !== 'js' && lang !== 'jsx';

// The decorators of TypeScript are older, and stand before parameters too.
function pluginsFor(lang, version) {
  const plugins = [...NEWER, attributesFor(version), isTyped(lang) ? 'decorators-legacy' : decoratorsFor(version)];
  if (lang === 'js' || lang === 'jsx' || lang === 'tsx') plugins.push('jsx');
  if (isTyped(lang)) plugins.push(['typescript', { dts: lang === 'dts' }]);
  return plugins;
}

// The bundle hands its parser to a plugin alone.
function parseInBundle({ transform }, text, options) {
  let found;
  const keep = (parse) => {
    try {
      return { ast: parse(text, options) };
    } catch (error) {
      return { error };
    }
  };
  const plugin = () => ({
    parserOverride(code, settings, parse) {
      found = keep(parse);
      return parse('', {});
    },
  });
  transform('', { plugins: [plugin], ast: false, code: false, babelrc: false, configFile: false });
  if (found.error) throw found.error;
  return found.ast;
}

function parseText({ name, module }, text, options) {
  return name === '@babel/parser' ? module.parse(text, options) : parseInBundle(module, text, options);
}

const isLeft = ({ reasonCode }, lang) => LEFT_TO_THE_ANALYSIS.has(reasonCode) || (isTyped(lang) && reasonCode === LEFT_IN_TYPESCRIPT);

// What Babel makes of the text as a goal, or the error. The modules that a script of TypeScript declares have imports.
function parseAs(goal, text, { lang, parser }) {
  const options = {
    sourceType: goal === 'module' ? 'module' : 'script',
    plugins: pluginsFor(lang, parser.version),
    errorRecovery: true,
    attachComment: false,
    createParenthesizedExpressions: true,
    allowReturnOutsideFunction: goal !== 'module',
    allowImportExportEverywhere: isTyped(lang),
  };
  try {
    const ast = parseText(parser, text, options);
    const error = ast.errors.find((one) => !isLeft(one, lang));
    return error === undefined ? { parsed: { ast, goal } } : { error };
  } catch (error) {
    if (error instanceof SyntaxError && error.pos !== undefined) return { error };
    throw isOverflow(error) ? error : new Refusal(`Babel's parser fails on this text: ${error.message}`);
  }
}

const isOverflow = (error) => error instanceof RangeError && /call stack/.test(error.message);

const furthest = (a, b) => (a.pos > b.pos ? a : b);

// Where no goal is given it is a script's, unless the file is none and is a module.
function read(text, request) {
  const { goal, parser } = request;
  const first = parseAs(goal || 'script', text, request);
  if (first.parsed) return { ...first.parsed, asScript: goal === undefined };
  const second = goal === undefined ? parseAs('module', text, request) : first;
  if (second.parsed) return second.parsed;
  const { message, pos } = furthest(first.error, second.error);
  throw refusalOf(parser, text, message.replace(/ \(\d+:\d+\)$/, ''), pos);
}

function* parsersIn(folder) {
  yield* parsersFor('@babel/parser', folder);
  yield* parsersFor('@babel/standalone', folder);
}

module.exports = { module: '@babel/parser', parsersIn, read, write };
