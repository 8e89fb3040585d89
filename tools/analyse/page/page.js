'use strict';
// The analyses of files as one page without outside parts.

const fs = require('fs');
const path = require('path');
const { bundle } = require('./bundle.js');
const { fileData } = require('./data.js');
const { embedded, escape } = require('./html.js');
const { modulesPicture } = require('./modules-picture.js');
const { plural } = require('./names.js');
const { panelsHtml } = require('./panels.js');
const { sourceHtml } = require('./source.js');
const { packed } = require('./tables-data.js');

const KEYS = [
  ['Tab', 'next name'],
  ['Enter', 'select'],
  ['Esc', 'clear'],
  ['j k', 'next, previous place of the selected name'],
  ['n p', 'next, previous symbol'],
  ['r', 'rename it'],
  ['g', 'from an import to its export'],
  ['/', 'filter symbols'],
];

function partOf(name) {
  return fs.readFileSync(path.join(__dirname, name), 'utf8');
}

function keysHtml() {
  return KEYS.map(([key, meaning]) => `<span><kbd>${key}</kbd> ${meaning}</span>`).join(' ');
}

function countsOf(model) {
  return [
    plural(model.positions.lines, 'line'),
    plural(model.scopes.length, 'scope'),
    plural(model.symbols.length, 'symbol'),
    plural(model.references.length, 'reference'),
    plural(model.findings.length, 'finding'),
  ].join(', ');
}

const factsHtml = (model) => `<p class="facts" data-file="${model.number}"${model.number === 0 ? '' : ' hidden'}>${model.goal}, ${model.lang}: ${countsOf(model)}</p>`;

function fileTab({ number, file }) {
  return `<a class="tab" role="tab" href="#file-${number}" data-file="${number}" aria-selected="${number === 0}">${escape(file)}</a>`;
}

function viewTabs(hasModules) {
  const views = [['source', 'Source'], ['scopes', 'Picture of scopes'], ...(hasModules ? [['modules', 'Picture of modules']] : [])];
  return views.map(([view, title]) => `<button type="button" role="tab" data-view="${view}" aria-selected="${view === 'source'}">${title}</button>`).join('');
}

function headerHtml(models, title, graph) {
  const tabs = models.length > 1 ? `<nav id="files" role="tablist" aria-label="Files">${models.map(fileTab).join('')}</nav>\n` : '';
  return `<a class="skip" href="#source">Skip to the source</a>
<a class="skip" href="#filter">Skip to the symbols</a>
<h1>${escape(title)}</h1>
${models.map(factsHtml).join('\n')}
${tabs}<nav id="views" role="tablist" aria-label="Views">${viewTabs(graph !== null)}</nav>
<p class="keys">${keysHtml()}</p>`;
}

function fileHtml(model) {
  const hidden = model.number === 0 ? '' : ' hidden';
  return `<article class="file" id="file-${model.number}" data-file="${model.number}" aria-label="${escape(model.file)}" tabindex="-1"${hidden}>
${sourceHtml(model)}
</article>`;
}

function sideHtml(model) {
  return `<div class="panels" data-file="${model.number}"${model.number === 0 ? '' : ' hidden'}>
${panelsHtml(model)}
</div>`;
}

const tablesHtml = (model) => `<script type="application/json" id="tables-${model.number}">${embedded(packed(model.tables))}</script>`;

function picturesHtml(graph) {
  const modules = graph === null ? '' : `\n<section class="picture" data-view="modules" hidden aria-label="Picture of modules">${modulesPicture(graph)}</section>`;
  return `<section class="picture" data-view="scopes" hidden aria-label="Picture of scopes"></section>${modules}`;
}

const RENAMING = `<form id="rename" hidden aria-label="Rename"><label>Rename to <input name="to" autocomplete="off" autocapitalize="off" spellcheck="false"></label>
<button type="button" value="close">Close</button><div id="renamed" aria-live="polite"></div></form>`;

// `models` are those of files; `graph`, or null, is that of the modules, whose files of the page have their number.
function pageHtml(models, { title = models[0].file, graph = null } = {}) {
  return `<!DOCTYPE html>
<html lang="en">
<head>
<meta charset="utf-8">
<meta name="viewport" content="width=device-width, initial-scale=1">
<meta name="color-scheme" content="light dark">
<title>Scopes of ${escape(title)}</title>
<style>
${partOf('page.css')}</style>
</head>
<body>
<header>
${headerHtml(models, title, graph)}
</header>
<main id="source" tabindex="-1" aria-label="Source">
${models.map(fileHtml).join('\n')}
${picturesHtml(graph)}
</main>
<aside aria-label="Names and scopes">
<section id="details" aria-live="polite" aria-label="Selected name"><p>Select a name in the source.</p></section>
${models.map(sideHtml).join('\n')}
</aside>
<div id="hint" role="tooltip" hidden></div>
${RENAMING}
<script type="application/json" id="data">${embedded(models.map(fileData))}</script>
${models.map(tablesHtml).join('\n')}
<script>
${bundle(path.join(__dirname, 'client', 'index.js'))}</script>
</body>
</html>
`;
}

module.exports = { pageHtml };
