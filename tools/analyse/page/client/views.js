'use strict';
// Which file the page shows, and which view: its source, or a picture.

const { showScopes } = require('./scopes-picture.js');

let file = 0;
let view = 'source';

const each = (selector, run) => document.querySelectorAll(selector).forEach(run);

function showParts() {
  each('article.file', (one) => { one.hidden = view !== 'source' || Number(one.dataset.file) !== file; });
  each('.picture', (one) => { one.hidden = one.dataset.view !== view; });
  each('.panels, .facts', (one) => { one.hidden = Number(one.dataset.file) !== file; });
  each('#files .tab', (one) => one.setAttribute('aria-selected', String(Number(one.dataset.file) === file)));
  each('#views button', (one) => one.setAttribute('aria-selected', String(one.dataset.view === view)));
  if (view === 'scopes') {
    showScopes(file, document.querySelector('.picture[data-view=scopes]'));
  }
}

// What isn't given stays.
function show(next) {
  const isOther = (next.file ?? file) !== file || (next.view ?? view) !== view;
  ({ file = file, view = view } = next);
  if (isOther) {
    showParts();
  }
}

const currentFile = () => file;

// The file that an element stands in.
const fileOf = (element) => Number(element.closest('[data-file]').dataset.file);

module.exports = { currentFile, fileOf, show };
