'use strict';
// A file that is made, or made anew: whole or not at all.

const fs = require('fs');
const path = require('path');
const { RunFault } = require('../bolgwyr/faults.js');
const { printable } = require('../analyse/refusal.js');

function putFile(file, content) {
  const beside = path.join(path.dirname(file), `.${path.basename(file)}.${process.pid}.new`);
  try {
    fs.mkdirSync(path.dirname(file), { recursive: true });
    fs.writeFileSync(beside, content, { flag: 'wx' });
    fs.renameSync(beside, file);
  } catch (error) {
    fs.rmSync(beside, { force: true });
    throw new RunFault(`${printable(file)}: can't be written: ${error.message}`);
  }
}

module.exports = { putFile };
