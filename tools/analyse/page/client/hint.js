'use strict';
// What is told of a name while the mouse is over it.

const { hintText } = require('./details.js');
const { knownTarget, placesOf } = require('./tables.js');

const AWAY = 6; // from the name

const hint = document.getElementById('hint');
let hovered = [];

function leave() {
  hovered.forEach((own) => own.classList.remove('hovered'));
  hovered = [];
  hint.hidden = true;
}

// Below the name, or above it where there is no room.
function put(made, box) {
  const below = box.bottom + AWAY + made.offsetHeight <= innerHeight;
  made.style.left = `${Math.max(0, Math.min(box.left, innerWidth - made.offsetWidth - 8))}px`;
  made.style.top = `${below ? box.bottom + AWAY : Math.max(0, box.top - AWAY - made.offsetHeight)}px`;
}

function hover(event) {
  leave();
  const anchor = event.target.closest('.source a');
  const target = anchor === null ? null : knownTarget(anchor.id);
  if (target === null) {
    return;
  }
  hovered = placesOf(target).map((place) => document.getElementById(place.id)).filter((own) => own !== null);
  hovered.forEach((own) => own.classList.add('hovered'));
  hint.textContent = hintText(target);
  hint.hidden = false;
  put(hint, anchor.getBoundingClientRect());
}

module.exports = { hover, put };
