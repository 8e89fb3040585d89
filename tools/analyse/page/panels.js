'use strict';
// The lists beside the source of a file: findings, free names, symbols and scopes.

const { childrenOf } = require('./boxes.js');
const { escape } = require('./html.js');
const { plural } = require('./names.js');

// How many places of a free name are listed.
const FIRST = 4;

function placeOf(span) {
  return `${span.line}:${span.column}`;
}

function section(id, title, count, body, open) {
  return `<details class="panel" id="${id}"${open ? ' open' : ''}><summary><h2>${title} <span class="count">${count}</span></h2></summary>${body}</details>`;
}

function list(items) {
  return items.length === 0 ? '<p class="none">none</p>' : `<ul>${items.join('')}</ul>`;
}

function symbolItem({ prefix }, symbol) {
  const uses = plural(symbol.references.length, 'use');
  const look = symbol.isUnused ? ' class="unused"' : '';
  const place = placeOf(symbol.declarations[0]);
  return `<li${look}><a href="#${prefix}symbol-${symbol.id}">${escape(symbol.name)}</a> <small>${place}, ${uses}</small></li>`;
}

function symbolsPanel(model) {
  const { prefix, symbols } = model;
  const filter = `<label class="filter">Filter <input type="search" id="${prefix}filter" autocomplete="off" spellcheck="false"></label>`;
  return section(`${prefix}panel-symbols`, 'Symbols', symbols.length, filter + list(symbols.map((symbol) => symbolItem(model, symbol))), true);
}

// Selecting the name tells all its places; the list has the first.
function freeItem({ prefix, references }, entry, place) {
  const first = entry.references.slice(0, FIRST).map((id) => `<a href="#${prefix}ref-${id}">${placeOf(references[id].span)}</a>`);
  const more = entry.references.length > FIRST ? ` and ${entry.references.length - FIRST} more` : '';
  return `<li id="${prefix}free-${place}"><a href="#${prefix}free-${place}">${escape(entry.name)}</a> <small>${first.join(' ')}${more}</small></li>`;
}

function freePanel(model) {
  const items = model.free.map((entry, place) => freeItem(model, entry, place));
  return section(`${model.prefix}panel-free`, 'Free names', items.length, list(items), true);
}

// A place of another file is told, and leads nowhere.
function placeItem(id, { text, file, line, column, span }) {
  const said = text === null ? '' : ` ${escape(text)}`;
  const place = span === null ? `${escape(file)}:${line}:${column}` : `<a href="#${id}">${placeOf(span)}</a>`;
  return `<li>${place}${said}</li>`;
}

function remark(word, text) {
  return text === null ? '' : `<p>${word}: ${escape(text)}</p>`;
}

// A finding: its own place leads, and what belongs to it stands below.
function findingItem({ prefix }, { rule, severity, message, help, note, places }, number) {
  const ids = places.map((place, at) => `${prefix}finding-${number}-${at}`);
  const items = places.map((place, at) => placeItem(ids[at], place));
  const lead = `<a href="#${ids[0]}">${escape(message)}</a> <small>${severity}, ${rule}</small>`;
  return `<li class="message ${severity}">${lead}<ul>${items.join('')}</ul>${remark('Help', help)}${remark('Note', note)}</li>`;
}

function findingsPanel(model) {
  const items = model.findings.map((finding, number) => findingItem(model, finding, number));
  return section(`${model.prefix}panel-findings`, 'Findings', items.length, list(items), items.length > 0);
}

function scopeHead({ prefix }, scope) {
  const flags = scope.flags.length === 0 ? '' : ` <small>${scope.flags.join(' ')}</small>`;
  const names = scope.bindings.map((entry) => `<a href="#${prefix}symbol-${entry.symbol}">${escape(entry.name)}</a>`);
  const lines = `${scope.span.line}–${scope.lastLine}`;
  return `<a class="scope-link" href="#${prefix}scope-${scope.id}">${scope.kind} ${lines}</a>${flags}<div>${names.join(' ')}</div>`;
}

// Scopes inside scopes, each a box with its names.
function writeScopeBox(model, children, scope, out) {
  out.push(`<li class="box">${scopeHead(model, scope)}`);
  const inside = children[scope.id];
  if (inside.length > 0) {
    out.push('<ul>');
    for (const inner of inside) {
      writeScopeBox(model, children, inner, out);
    }
    out.push('</ul>');
  }
  out.push('</li>');
}

function scopesPanel(model) {
  const out = [];
  writeScopeBox(model, childrenOf(model.scopes), model.scopes[0], out);
  return section(`${model.prefix}panel-scopes`, 'Scopes', model.scopes.length, `<ul>${out.join('')}</ul>`, false);
}

function panelsHtml(model) {
  return [findingsPanel, freePanel, symbolsPanel, scopesPanel].map((panel) => panel(model)).join('\n');
}

module.exports = { panelsHtml };
