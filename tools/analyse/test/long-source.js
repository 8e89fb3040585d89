'use strict';
// A source of ten thousand lines and more on standard output, with functions in functions, loops, classes and closures. Nothing uses most
// of its names; with the word --used they are used but for twenty.

const isUsed = process.argv[2] === '--used';
const EACH = 25; // how many parts there are for one name that nothing uses

const part = (n) => `
// part ${n}
${isUsed ? 'export ' : ''}function work${n}(list, ...rest) {
  const seen = new Map();
  let count = ${n};${isUsed && n % EACH === 0 ? '\n  const spare = list.length;' : ''}
  for (const item of list) {
    if (seen.has(item)) {
      count += seen.get(item);
    } else {
      seen.set(item, () => rest.map((one) => one + count));
    }
  }
  try {
    return work${Math.max(0, n - 1)}([...seen.keys()], count);
  } catch (error) {
    console.log(\`\${error.message}: \${count}\`);
  }
  class Part extends Object {
    get total() { return count + list.length; }
  }
  return new Part().total;
}`;

process.stdout.write(Array.from({ length: 500 }, (_, n) => part(n)).join('\n'));
