'use strict';
// Elements that the page's script makes.

function element(name, text, attributes = {}) {
  const made = document.createElement(name);
  made.textContent = text;
  for (const [key, value] of Object.entries(attributes)) {
    made.setAttribute(key, value);
  }
  return made;
}

function paragraph(...parts) {
  const made = document.createElement('p');
  made.append(...parts);
  return made;
}

const link = (id, text) => element('a', text, { href: `#${id}` });

// A text with the places that stand in it as links: `3:5`.
const placeLinks = (places) => places.flatMap(({ id, line, column }) => [link(id, `${line}:${column}`), ' ']);

const counted = (number, word) => `${number} ${word}${number === 1 ? '' : 's'}`;

module.exports = { counted, element, link, paragraph, placeLinks };
