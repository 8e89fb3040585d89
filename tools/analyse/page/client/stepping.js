'use strict';
// Keys that go on to other names.

const { declarationId } = require('../ids.js');
const { currentTarget, go } = require('./selection.js');
const { files, importOf, placesOf, symbolIdOf } = require('./tables.js');
const { currentFile } = require('./views.js');

// The next or previous place of the selected name, or the first name of the source.
function step(distance) {
  const target = currentTarget();
  const places = target === null ? [] : placesOf(target);
  if (places.length === 0) {
    const first = document.querySelector(`#file-${currentFile()} .source a:not(.m)`);
    if (first !== null) {
      go(first.id, { focus: true });
    }
    return;
  }
  const here = Math.max(0, places.findIndex((place) => place.id === target.id));
  go(places[(here + distance + places.length) % places.length].id, { focus: true });
}

function stepSymbol(distance) {
  const file = currentFile();
  const count = files[file].symbols.length;
  if (count > 0) {
    const target = currentTarget();
    const here = target === null || target.file !== file ? null : symbolIdOf(target);
    const next = here === null ? (distance > 0 ? 0 : count - 1) : (here + distance + count) % count;
    go(declarationId(file, next, 0), { focus: true });
  }
}

// From a name that is imported to what it imports.
function goToExport() {
  const target = currentTarget();
  const symbol = target === null ? null : symbolIdOf(target);
  const taken = symbol === null ? undefined : importOf(target.file, symbol);
  if (taken !== undefined && taken.target !== null) {
    go(taken.target, { focus: true });
  }
}

// Up and down inside a list of the side.
function stepItem(from, distance) {
  const links = [...from.closest('.panel').querySelectorAll('a')].filter((item) => item.closest('[hidden]') === null);
  const next = links[links.indexOf(from) + distance];
  if (next !== undefined) {
    next.focus();
  }
}

module.exports = { goToExport, step, stepItem, stepSymbol };
