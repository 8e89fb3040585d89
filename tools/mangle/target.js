'use strict';
// Where a mangled file is written.

const fs = require('fs');
const path = require('path');
const { UsageFault } = require('../bolgwyr/faults.js');
const { printable } = require('../analyse/refusal.js');

const realPath = (file) => (fs.existsSync(file) ? fs.realpathSync(file) : path.resolve(file));

// The file below the folder that goes by the name of the source, which stands in this folder or below it.
function belowFolder(file, folder) {
  const name = path.relative('.', file);
  if (name.split(path.sep)[0] === '..' || path.isAbsolute(name)) {
    throw new UsageFault(`-o takes files of this folder and below it: ${printable(file)} is none`);
  }
  const target = path.join(folder, name);
  if (realPath(target) === realPath(file)) {
    throw new UsageFault(`-o ${printable(folder)} would write over ${printable(file)}: --write does that`);
  }
  return target;
}

// Null stands for standard output.
function targetOf(file, { write, out }) {
  if (out !== undefined) {
    return belowFolder(file, out);
  }
  return write ? file : null;
}

module.exports = { targetOf };
