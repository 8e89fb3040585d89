'use strict';
// Reads TypeScript, JSX and JavaScript with TypeScript's compiler.

const { refusalOf } = require('../newer');
const { parsersFor } = require('../parsers');
const { commentsOf } = require('../comments');
const { TypeScriptConversion } = require('../typescript');
const { wholeStatements } = require('../typescript/again');

const SCRIPT_KINDS = { js: 'JS', jsx: 'JSX', ts: 'TS', tsx: 'TSX', dts: 'TS' };

// Faults of the compiler that don't refuse a text: a private member of a chain is JavaScript.
const PRIVATE_IN_CHAIN = 18030;

// Faults in escapes, which the pieces of a template behind a tag may have.
const ESCAPES = new Set([1125, 1198, 1199]);

const AWAIT = /\bawait\b/;

function parse(text, { filename, lang, parser }, asModule) {
  const ts = parser.module;
  const options = { languageVersion: ts.ScriptTarget.Latest };
  if (asModule) options.setExternalModuleIndicator = (file) => { file.externalModuleIndicator = file; };
  if (ts.JSDocParsingMode) options.jsDocParsingMode = ts.JSDocParsingMode.ParseNone;
  const file = ts.createSourceFile(filename, text, options, false, ts.ScriptKind[SCRIPT_KINDS[lang]]);
  const { statements, faults } = wholeStatements(ts, file);
  const counted = faults.filter(({ code }) => code !== PRIVATE_IN_CHAIN);
  return { ts, statements, faults: counted, isModule: file.externalModuleIndicator !== undefined, parser };
}

const isRefused = ({ faults }) => faults.some(({ code }) => !ESCAPES.has(code));

function refusal({ ts, parser }, text, fault) {
  return refusalOf(parser, text, ts.flattenDiagnosticMessageText(fault.messageText, ' '), fault.start);
}

// A text that is refused as a script may be a module that `await` alone shows. Of two refusals the one further on counts.
function read(text, request) {
  const first = parse(text, request, request.goal === 'module');
  if (!isRefused(first)) return { ...first, asScript: request.goal === undefined && !first.isModule };
  if (request.goal === undefined && !first.isModule && AWAIT.test(text)) {
    const second = parse(text, request, true);
    if (!isRefused(second)) return { ...second, goal: 'module' };
    if (second.faults[0].start > first.faults[0].start) throw refusal(second, text, second.faults[0]);
  }
  throw refusal(first, text, first.faults[0]);
}

// The first fault that stands in none of the ranges.
function firstOutside(faults, ranges) {
  const inOrder = ranges.sort((a, b) => a[0] - b[0]);
  let next = 0;
  return [...faults].sort((a, b) => a.start - b.start).find(({ start }) => {
    while (next < inOrder.length && inOrder[next][1] < start) next++;
    return next === inOrder.length || inOrder[next][0] > start;
  });
}

function write(parsed, text, writer, annotations) {
  const conversion = new TypeScriptConversion(parsed.ts, text, writer, annotations);
  conversion.program(parsed.statements);
  const fault = firstOutside(parsed.faults, conversion.allowed);
  if (fault !== undefined) throw refusal(parsed, text, fault);
  return commentsOf(text, conversion.hidden, conversion.afterHashbang);
}

module.exports = {
  module: 'typescript',
  parsersIn: (folder) => parsersFor('typescript', folder),
  read,
  write,
  parse,
  isRefused,
  firstOutside,
};
