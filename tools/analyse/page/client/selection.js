'use strict';
// Selects names and scopes: marks their places, and tells of them.

const { prefixOf } = require('../ids.js');
const { described } = require('./details.js');
const { freeNumberOf, knownTarget, placesOf, symbolIdOf } = require('./tables.js');
const { fileOf, show } = require('./views.js');

const details = document.getElementById('details');
const startText = details.innerHTML;
const marked = new Map();
let selected = null;

function mark(element, look) {
  if (element !== null) {
    element.classList.add(look);
    marked.set(element, [...(marked.get(element) || []), look]);
  }
}

function clear() {
  for (const [element, looks] of marked) {
    element.classList.remove(...looks);
    element.removeAttribute('aria-current');
  }
  marked.clear();
  details.innerHTML = startText;
  selected = null;
}

// The item of a target in the lists of the side.
function itemOf(target) {
  const symbol = symbolIdOf(target);
  const prefix = prefixOf(target.file);
  if (symbol === null) {
    return document.getElementById(`${prefix}free-${freeNumberOf(target)}`);
  }
  return document.querySelectorAll(`#${prefix}panel-symbols li`)[symbol] || null;
}

function bringIntoView(element, { scroll = true, focus = false }) {
  if (scroll) {
    element.scrollIntoView({ block: 'center', inline: 'nearest' });
  }
  if (focus) {
    element.focus({ preventScroll: true });
  }
}

function markPlaces(target) {
  placesOf(target).forEach(({ id, declares }) => mark(document.getElementById(id), declares ? 'declaration' : 'tied'));
  mark(target.type === 'scope' ? document.getElementById(target.id) : itemOf(target), 'chosen');
}

// Selects what an id names; false where it names nothing.
function select(id, options = {}) {
  const target = knownTarget(id);
  clear();
  if (target === null) {
    return false;
  }
  selected = target;
  show({ file: target.file, ...(target.type === 'free' ? {} : { view: 'source' }) });
  markPlaces(target);
  details.replaceChildren(...described(target));
  const own = document.getElementById(id);
  if (own !== null && target.type !== 'free') {
    own.setAttribute('aria-current', 'true');
    mark(own, target.type === 'scope' ? 'chosen' : 'tied');
    bringIntoView(own, options);
  }
  return true;
}

// Shows an element of the page that is nothing to select: a file, a finding, a place in the source.
function visit(element, options) {
  const isFile = element.classList.contains('file');
  show({ file: fileOf(element), view: 'source' });
  if (!isFile) {
    bringIntoView(element, options);
    element.classList.add('visited');
    setTimeout(() => element.classList.remove('visited'), 1500);
  }
}

// Goes to what an id names; false where the page has no such thing.
function go(id, options = {}) {
  const element = document.getElementById(id);
  if (!select(id, options)) {
    if (element === null || element.closest('[data-file]') === null) {
      return false;
    }
    visit(element, options);
  }
  history.replaceState(null, '', `#${id}`);
  return true;
}

const currentTarget = () => selected;

module.exports = { clear, currentTarget, go };
