'use strict';
// Text that is put into a page.

const { visible } = require('../visible.js');

const ENTITIES = { '&': '&amp;', '<': '&lt;', '>': '&gt;', '"': '&quot;' };

function escape(text) {
  return visible(text).replace(/[&<>"]/g, (sign) => ENTITIES[sign]);
}

// A value that a script element holds as JSON.
function embedded(value) {
  return JSON.stringify(value).replace(/</g, '\\u003c').replace(/\u2028/g, '\\u2028').replace(/\u2029/g, '\\u2029');
}

module.exports = { embedded, escape };
