'use strict';
// The rules that tell what the report tells: early errors, names that are declared again, and labels that nothing names.

// A diagnostic as a finding: its first place leads, the others are related.
function findingOf({ code, message, labels, help, note }) {
  const [first, ...related] = labels;
  const remarks = { ...(first?.text && { said: first.text }), ...(help && { help }), ...(note && { note }) };
  return {
    span: first === undefined ? { start: 0, end: 0 } : first.span,
    message: code === null ? message : `${code}: ${message}`,
    related: related.map(({ span, text }) => ({ span, message: text ?? 'here' })),
    ...remarks,
  };
}

function* earlyErrors(answers) {
  for (const diagnostic of answers.findings.diagnostics) {
    yield findingOf(diagnostic);
  }
}

// What a function stands in where it is one of the function or program around. In a block it is the block's.
const OUTER = new Set(['Program', 'FunctionBody', 'ExportDeclaration', 'ExportDefaultDeclaration', 'TSModuleBlock']);
const PLAIN = new Set(['VariableDeclarator', 'FormalParameter', 'FormalParameterRest']);

// Whether a declaration makes a value of its own, where an earlier one has to give way. Signatures of a function, and what
// TypeScript merges, make none.
function isRival(tree, node) {
  const { kind, text } = tree.row(node);
  const isFunction = kind === 'Function' && text === 'declaration' && OUTER.has(tree.row(tree.parent(node)).kind);
  return isFunction || PLAIN.has(kind);
}

// The places of diagnostics, which tell a redeclaration already.
function diagnosedPlaces(answers) {
  return new Set(answers.findings.diagnostics.flatMap(({ labels }) => labels.map(({ span }) => span.start)));
}

function* redeclarations(answers) {
  const { redeclared } = answers;
  if (redeclared.length === 0) {
    return;
  }
  const diagnosed = diagnosedPlaces(answers);
  for (const { name, redeclarations: entries } of redeclared) {
    const [first, ...others] = entries.filter(({ node }) => isRival(answers.tree, node));
    for (const { span } of others) {
      if (!diagnosed.has(span.start) && span.start !== first.span.start) {
        yield { span, message: `'${name}' is already declared`, related: [{ span: first.span, message: 'here' }] };
      }
    }
  }
}

// The identifier of a labelled statement's label is the node behind it.
function* unusedLabels(answers) {
  for (const { node } of answers.findings.unusedLabels) {
    const { span, text } = answers.tree.row(node + 1);
    yield { span, message: `label '${text}' is never used` };
  }
}

module.exports = { earlyErrors, redeclarations, unusedLabels };
