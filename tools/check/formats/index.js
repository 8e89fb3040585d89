'use strict';
// The forms in which results are told. Each takes results and settings, and gives the whole text.

const FORMATS = ['pretty', 'unix', 'json', 'sarif', 'github'];

const formatOf = (name) => require(`./${name}.js`).format;

module.exports = { FORMATS, formatOf };
