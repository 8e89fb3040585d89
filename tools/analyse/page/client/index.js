'use strict';
// The page's script: what clicks, keys and the part of the address behind `#` do.

const { prefixOf } = require('../ids.js');
const { hover } = require('./hint.js');
const renaming = require('./renaming.js');
const { toggle } = require('./scopes-picture.js');
const { clear, go } = require('./selection.js');
const { goToExport, step, stepItem, stepSymbol } = require('./stepping.js');
const { currentFile, show } = require('./views.js');

function openFilter() {
  const prefix = prefixOf(currentFile());
  document.getElementById(`${prefix}panel-symbols`).open = true;
  document.getElementById(`${prefix}filter`).focus();
}

function unselect() {
  clear();
  history.replaceState(null, '', location.pathname + location.search);
}

const KEYS = {
  j: () => step(1),
  k: () => step(-1),
  n: () => stepSymbol(1),
  p: () => stepSymbol(-1),
  r: renaming.open,
  F2: renaming.open,
  g: goToExport,
  '/': openFilter,
  Escape: unselect,
};

const isFilter = (element) => element.closest('.filter') !== null;

// Escape leaves what is typed in.
function keyInField(event) {
  if (event.key === 'Escape') {
    event.preventDefault();
    isFilter(event.target) ? event.target.blur() : renaming.close();
  }
}

const ARROWS = { ArrowDown: 1, ArrowUp: -1 };

function key(event) {
  const { target } = event;
  if (event.ctrlKey || event.metaKey || event.altKey) {
    return;
  }
  const run = keyRun(target, event.key);
  if (target.closest('#rename, .filter') !== null) {
    keyInField(event);
  } else if (run !== undefined) {
    event.preventDefault();
    run();
  }
}

// What a key does on an element, or undefined.
function keyRun(target, name) {
  if (target.closest('.panel a') !== null && ARROWS[name] !== undefined) {
    return () => stepItem(target.closest('.panel a'), ARROWS[name]);
  }
  const head = target.closest('.head[role=button]');
  if (head !== null && (name === 'Enter' || name === ' ')) {
    return () => toggle(head);
  }
  return Object.hasOwn(KEYS, name) ? KEYS[name] : undefined;
}

// A name in the source stays where it is when it is selected; a link elsewhere brings it into view.
function follow(event, anchor) {
  const isName = anchor.closest('.source') !== null && !anchor.classList.contains('m');
  const id = isName ? anchor.id : anchor.getAttribute('href').slice(1);
  if (go(id, { scroll: !isName })) {
    event.preventDefault();
  }
}

function click(event) {
  const anchor = event.target.closest('a[href^="#"]');
  const head = event.target.closest('.head[role=button]');
  const view = event.target.closest('#views button');
  if (anchor !== null) {
    follow(event, anchor);
  } else if (head !== null) {
    toggle(head);
  } else if (view !== null) {
    show({ view: view.dataset.view });
  } else if (event.target.closest('button[value=rename]') !== null) {
    renaming.open();
  }
}

function filter({ target }) {
  if (isFilter(target)) {
    const wanted = target.value.toLowerCase();
    target.closest('.panel').querySelectorAll('li').forEach((item) => {
      item.hidden = !item.firstChild.textContent.toLowerCase().includes(wanted);
    });
  }
}

const fromAddress = () => go(decodeURIComponent(location.hash.slice(1)));

document.addEventListener('keydown', key);
document.addEventListener('click', click);
document.addEventListener('dblclick', (event) => event.target.closest('.source a:not(.m)') !== null && renaming.open());
document.addEventListener('mouseover', hover);
document.addEventListener('input', filter);
addEventListener('hashchange', fromAddress);
if (location.hash.length > 1) {
  fromAddress();
}
