'use strict';
// How long the parts of an analysis took, and their shares.

const { printable } = require('./refusal.js');

// In the analysis are the reading of the tree and the writing of the report.
const PARTS = ['reading', 'parser', 'conversion', 'analysis'];

function timeLine(file, times) {
  const all = PARTS.reduce((sum, part) => sum + times[part], 0);
  const parts = PARTS.map((part) => `${part} ${times[part].toFixed(1)} ms (${Math.round((100 * times[part]) / all)} %)`);
  return `time: ${printable(file)}: ${parts.join(', ')}`;
}

module.exports = { timeLine };
