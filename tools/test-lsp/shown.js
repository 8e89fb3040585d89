'use strict';
// Answers in short, so that tables of them can be read.

const place = ({ line, character }) => `${line}:${character}`;
const range = ({ start, end }) => `${place(start)}-${place(end)}`;
const edit = (one) => `${range(one.range)} ${one.newText}`;
const HOW = { 1: 'text', 2: 'read', 3: 'write' };

function workspaceEdit({ changes, documentChanges }) {
  return documentChanges === undefined
    ? Object.values(changes).map((edits) => edits.map(edit))
    : documentChanges.map(({ textDocument, edits }) => [`version ${textDocument.version}`, ...edits.map(edit)]);
}

function outline({ name, kind, range: whole, selectionRange, children }) {
  return [`${name} ${kind} ${range(whole)} ${range(selectionRange)}`, ...(children.length > 0 ? [children.map(outline)] : [])];
}

const listed = ({ name, kind, location, containerName = '-' }) => `${name} ${kind} ${range(location.range)} ${containerName}`;

function action({ title, kind, edit: changes, disabled, data }) {
  const made = changes === undefined ? [] : workspaceEdit(changes);
  return [kind, title, ...made, ...(disabled ? [`disabled: ${disabled.reason}`] : []), ...(data ? ['resolved later'] : [])];
}

function diagnostic(one) {
  const related = (one.relatedInformation ?? []).map(({ location, message }) => `${range(location.range)} ${message}`);
  return [`${range(one.range)} ${one.severity} ${one.code}: ${one.message}${(one.tags ?? []).map((tag) => ` tag ${tag}`).join('')}`, ...related];
}

// By the request's name behind `textDocument/` and the like.
const SHOWN = {
  definition: (found) => found.map((one) => range(one.range)),
  references: (found) => found.map((one) => range(one.range)),
  documentHighlight: (found) => found.map((one) => `${range(one.range)} ${HOW[one.kind]}`),
  hover: ({ contents, range: whole }) => [range(whole), contents.kind, contents.value],
  prepareRename: (found) => `${range(found.range)} ${found.placeholder}`,
  rename: workspaceEdit,
  documentSymbol: (found) => found.map((one) => (one.location === undefined ? outline(one) : listed(one))),
  codeAction: (found) => found.map(action),
  resolve: action,
};

// A result in short, or the error's number and text.
function shown(method, { result, error }) {
  if (error !== undefined) {
    return `${error.code} ${error.message}`;
  }
  return result === null ? null : SHOWN[method.split('/')[1]](result);
}

module.exports = { diagnostic, shown };
