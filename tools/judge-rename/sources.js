'use strict';
// The source files of folders.

const fs = require('fs');
const path = require('path');

const SOURCE = /\.(?:[cm]?js|jsx|[cm]?ts|tsx)$/;

function filesBelow(place, largest) {
  const { size } = fs.statSync(place);
  if (!fs.statSync(place).isDirectory()) {
    return size <= largest ? [place] : [];
  }
  const entries = fs.readdirSync(place, { withFileTypes: true }).sort((a, b) => (a.name < b.name ? -1 : 1));
  return entries.flatMap((entry) => {
    const below = path.join(place, entry.name);
    if (entry.isDirectory()) {
      return filesBelow(below, largest);
    }
    return entry.isFile() && SOURCE.test(entry.name) && fs.statSync(below).size <= largest ? [below] : [];
  });
}

module.exports = { filesBelow };
