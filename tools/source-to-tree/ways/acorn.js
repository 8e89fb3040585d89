'use strict';
// Reads JavaScript with acorn, and JSX with its plugin.

const { isMissing } = require('../load');
const { parsersFor } = require('../parsers');
const { EstreeConversion } = require('../estree');
const { classOver } = require('./acorn-class');

const classes = new WeakMap(); // by parser: its class by plugin, or by null for plain JavaScript

// The class that reads plain JavaScript or, with acorn's plugin, JSX.
function classFor(parser, jsx) {
  if (!classes.has(parser)) classes.set(parser, new Map());
  const made = classes.get(parser);
  const { Parser } = parser.module;
  if (!made.has(jsx)) made.set(jsx, classOver(jsx === null ? Parser : Parser.extend(jsx.module())));
  return made.get(jsx);
}

// Undefined where the plugin isn't there.
function jsxClassFor(parser, folder) {
  const [jsx] = parsersFor('acorn-jsx', folder);
  return jsx && classFor(parser, jsx);
}

// The options of the parser; comments go to the list.
const optionsFor = (sourceType, comments) => ({
  ecmaVersion: 'latest',
  sourceType,
  allowHashBang: true,
  allowReturnOutsideFunction: sourceType === 'script',
  preserveParens: true,
  onComment: (block, value, start, end) => comments.push({ block, start, end }),
});

function parseAs(Parser, sourceType, text) {
  const comments = [];
  return { ast: Parser.parse(text, optionsFor(sourceType, comments)), comments, goal: sourceType };
}

// A line that begins as a statement does which makes a file a module.
const LIKE_A_MODULE = /^(?:import|export)\b/m;

const isModuleStatement = ({ type }) => type === 'ImportDeclaration' || type.startsWith('Export');

// What the class makes of a module, or null where the text could be a script as well, or is none of both.
function parseModule(Parser, text) {
  try {
    const parsed = parseAs(Parser, 'module', text);
    return parsed.ast.body.some(isModuleStatement) ? parsed : null;
  } catch (error) {
    if (!(error instanceof SyntaxError) || error.pos === undefined) throw error;
    return null;
  }
}

// What the class makes of the text as the first goal that it takes it for, or its errors. What is a module for sure isn't tried as a
// script before.
function parse(Parser, goals, text) {
  const likely = goals.length > 1 && LIKE_A_MODULE.test(text) ? parseModule(Parser, text) : null;
  if (likely !== null) return { parsed: likely };
  const errors = [];
  for (const goal of goals) {
    try {
      return { parsed: parseAs(Parser, goal, text) };
    } catch (error) {
      if (!(error instanceof SyntaxError) || error.pos === undefined) throw error;
      errors.push(error);
    }
  }
  return { errors };
}

// Of two errors that one counts which is further on.
const furthest = (errors) => errors.reduce((best, error) => (error.pos >= best.pos ? error : best));

// What tells the syntax of an error is loaded for a refusal alone.
function asRefusal(error, text, parser) {
  const { refusalOf, refusalFor } = require('../newer');
  const { isNewerRegExp } = require('../regexps');
  const { pos, message } = error;
  if (error.syntax) return refusalFor(parser, error.syntax, pos);
  const regExp = isNewerRegExp(error, text);
  if (regExp) return refusalFor(parser, regExp, pos);
  return refusalOf(parser, text, message.replace(/ \(\d+:\d+\)$/, ''), pos);
}

// JavaScript whose refusal stands where an element may begin is tried as JSX.
function parseScript(goals, text, { parser, folder }) {
  const first = parse(classFor(parser, null), goals, text);
  if (first.parsed || !first.errors.some(({ pos }) => text[pos] === '<')) return first;
  const Parser = jsxClassFor(parser, folder);
  if (Parser === undefined) return first;
  const second = parse(Parser, goals, text);
  return second.parsed || asRefusal(furthest(second.errors), text, parser).isForAge ? second : first;
}

function parseJsx(goals, text, { parser, folder }) {
  const Parser = jsxClassFor(parser, folder);
  if (Parser === undefined) throw isMissing('acorn-jsx');
  return parse(Parser, goals, text);
}

// Where no goal is given it is a script's, unless the file is none and is a module.
function read(text, request) {
  const { lang, goal, parser } = request;
  const goals = goal === undefined ? ['script', 'module'] : [goal === 'module' ? 'module' : 'script'];
  const { parsed, errors } = (lang === 'jsx' ? parseJsx : parseScript)(goals, text, request);
  if (parsed === undefined) throw asRefusal(furthest(errors), text, parser);
  return parsed;
}

// A hashbang is none of the tree's comments.
const withoutHashbang = (comments, text) => comments.filter(({ start }) => start > 0 || !text.startsWith('#!'));

function write(parsed, text, writer, annotations) {
  new EstreeConversion(text, writer, annotations).program(parsed.ast);
  return withoutHashbang(parsed.comments, text);
}

module.exports = {
  module: 'acorn',
  parsersIn: (folder) => parsersFor('acorn', folder),
  read,
  write,
  scriptClassFor: (parser) => classFor(parser, null),
  optionsFor,
  withoutHashbang,
  isModuleStatement,
  LIKE_A_MODULE,
};
