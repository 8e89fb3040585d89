'use strict';
// What the ending of a file's name tells: its language and its goal.

const LANGUAGES = [
  [/\.d\.[mc]?ts$/i, 'dts'],
  [/\.[mc]?ts$/i, 'ts'],
  [/\.tsx$/i, 'tsx'],
  [/\.jsx$/i, 'jsx'],
];

function languageOf(filename) {
  const found = LANGUAGES.find(([ending]) => ending.test(filename));
  return found ? found[1] : 'js';
}

// The goal that the name alone decides, else undefined.
function goalOf(filename) {
  if (/\.m[jt]s$/i.test(filename)) return 'module';
  if (/\.cjs$/i.test(filename)) return 'script';
  return undefined;
}

module.exports = { languageOf, goalOf };
