'use strict';
// What of a text has changed.

const BLOCK = 4096; // units that are compared at once

// How many units from the beginning on are alike in both texts, in blocks and then one by one.
function alikeBefore(old, text, most) {
  let count = 0;
  while (count + BLOCK <= most && old.slice(count, count + BLOCK) === text.slice(count, count + BLOCK)) count += BLOCK;
  return singlesBefore(old, text, count, most);
}

function singlesBefore(old, text, from, most) {
  let count = from;
  while (count < most && old.charCodeAt(count) === text.charCodeAt(count)) count += 1;
  return count;
}

// How many units up to the end are.
function alikeBehind(old, text, most) {
  const blockOf = (whole, count) => whole.slice(whole.length - count - BLOCK, whole.length - count);
  let count = 0;
  while (count + BLOCK <= most && blockOf(old, count) === blockOf(text, count)) count += BLOCK;
  return singlesBehind(old, text, count, most);
}

function singlesBehind(old, text, from, most) {
  let count = from;
  while (count < most && old.charCodeAt(old.length - count - 1) === text.charCodeAt(text.length - count - 1)) count += 1;
  return count;
}

// `{ start, end, moved }`: the old text differs from the new one between start and end alone, and what follows is so many units further on.
function changeBetween(old, text) {
  const shorter = Math.min(old.length, text.length);
  const start = alikeBefore(old, text, shorter);
  return { start, end: old.length - alikeBehind(old, text, shorter - start), moved: text.length - old.length };
}

module.exports = { changeBetween };
