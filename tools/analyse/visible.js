'use strict';
// Source text that can be shown.

const HIDDEN = /[\u0000-\u0008\u000a-\u001f\u007f-\u009f\u2028\u2029\u202a-\u202e\u2066-\u2069]/g;

// A picture of a character that would steer a terminal or turn the direction of the text.
function picture(sign) {
  const code = sign.charCodeAt(0);
  return code < 0x20 ? String.fromCharCode(0x2400 + code) : '\u25a1';
}

// The text with a picture in the place of each such character. A tab stays.
function visible(text) {
  return text.replace(HIDDEN, picture);
}

module.exports = { visible };
