'use strict';
// How files are dealt to jobs.

// Jobs for each processor: few enough that starting node doesn't count, and enough that none waits long at the end.
const JOBS_FOR_EACH = 8;
const MOST_FILES = 50;

function batchSize(files, processors) {
  return Math.max(1, Math.min(MOST_FILES, Math.ceil(files / (processors * JOBS_FOR_EACH))));
}

// The files in an order in which consecutive batches are about equally large, the largest files first in theirs.
function dealt(files, size) {
  const bySize = [...files].sort((left, right) => right.size - left.size || (left.name < right.name ? -1 : 1));
  const batches = Math.ceil(bySize.length / size);
  const order = [];
  for (let batch = 0; batch < batches; batch += 1) {
    for (let place = batch; place < bySize.length; place += batches) {
      order.push(bySize[place]);
    }
  }
  return order;
}

module.exports = { batchSize, dealt };
