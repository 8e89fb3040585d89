'use strict';
// Expressions that ask a page.

// The text of the elements that a selector finds.
const texts = (selector) => `[...document.querySelectorAll(${JSON.stringify(selector)})].map((e) => e.textContent)`;
const ids = (selector) => `[...document.querySelectorAll(${JSON.stringify(selector)})].map((e) => e.id)`;

// The id of the n-th element in the source with this text and look.
const named = (look, text, place = 0) =>
  `[...document.querySelectorAll('.source a.${look}')].filter((e) => e.textContent === '${text}')[${place}].id`;

const click = (selector) => `document.querySelector(${JSON.stringify(selector)}).click()`;

module.exports = { click, ids, named, texts };
