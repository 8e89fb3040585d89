'use strict';
// How long a page works.

// The page's own processor time of what an expression does, in milliseconds, with the painting. Other work on the machine
// doesn't count.
async function spentOn(browser, expression) {
  const before = await browser.processorTime();
  await browser.ask(`${expression}; new Promise((resolve) => requestAnimationFrame(() => setTimeout(resolve)))`);
  return Math.round(await browser.processorTime() - before);
}

module.exports = { spentOn };
