'use strict';
// Regular expressions that an older parser refuses and the language has: those that the engine which runs this takes.

const MODIFIERS = /\(\?[ims]*(?:-[ims]*)?:/g; // which the engine may be too old for itself

// What a pattern is made of, as far as names of groups want it: escapes, classes, and what opens, parts and closes groups.
const PARTS = /\\[^]|\[(?:\\[^]|[^\]\\])*\]|\(\?<([^>=!][^>]*)>|[(|)]/g;

// Whether two groups never take part in one match: they stand in different alternatives of one group.
function areApart(path, other) {
  const at = path.findIndex(({ id, alternative }, depth) => other[depth] === undefined || other[depth].id !== id || other[depth].alternative !== alternative);
  return at >= 0 && other[at] !== undefined && other[at].id === path[at].id;
}

// The pattern with other names for groups whose names stand already in alternatives apart, which newer engines take as they are.
function withOwnNames(pattern) {
  const open = [{ id: 0, alternative: 0 }];
  const known = new Map();
  let last = 0;
  return pattern.replace(PARTS, (part, name) => {
    if (part === '|') open[open.length - 1].alternative += 1;
    if (part === ')' && open.length > 1) open.pop();
    if (part[0] !== '(') return part;
    const path = open.map((one) => ({ ...one }));
    open.push({ id: ++last, alternative: 0 });
    if (name === undefined) return part;
    const others = known.get(name) || [];
    known.set(name, [...others, path]);
    return others.length > 0 && others.every((other) => areApart(path, other)) ? `(?<${name}${last}>` : part;
  });
}

function isTaken(pattern, flags) {
  try {
    return Boolean(new RegExp(withOwnNames(pattern.replace(MODIFIERS, '(?:')), flags));
  } catch {
    return false;
  }
}

// The syntax that acorn's error is about, where it is of a newer language; else undefined.
function isNewerRegExp({ message, pos, raisedAt }, text) {
  if (!/^Invalid regular expression/.test(message) || !(raisedAt > pos)) return undefined;
  const found = /^\/?([^]*)\/([a-z]*)$/.exec(text.slice(pos, raisedAt));
  if (found === null) return undefined;
  const [, pattern, flags] = found;
  if (!isTaken(pattern, flags)) return undefined;
  return { what: flags.includes('v') ? 'regular expressions with the flag `v`' : 'this regular expression' };
}

module.exports = { isNewerRegExp };
