'use strict';
// The documents that requests are asked of.

const TEXTS = {
  'main.mjs': `import { tool, other as renamed } from './tools.mjs';
const { alpha, beta = 1 } = tool;
export function total(items, unused) {
  let sum = 0;
  for (const item of items) {
    sum += item * alpha;
  }
  return sum + beta;
}
let lone = total([1], 2);
class Box { #size = 1; get size() { return this.#size; } }
var twice; var twice;
missing(Box, { alpha }, sum => total);
`,
  'types.ts': `interface Shape { side: number; area(): number }
enum Colour { Red }
export class Square implements Shape {
  constructor(public side: number) { this.kind = Colour.Red; }
  area() { const both = (x: number) => x * x; return both(this.side); }
  kind: Colour;
}
`,
  'broken.js': 'let a = 1;\nlet b = 1 +;\n',
  'early.mjs': 'let again = 1;\nlet again = 2;\nexport { again };\n',
  'script.js': 'var shared = 1;\nshared++;\n',
  'wide.mjs': "const text = '𝒳é'; /* 𝒳 */ const é = text;\r\nconsole.log(é, text);\rconst last = '\u2028', 𝒳 = last;\n",
};

const uriOf = (folder, name) => require('url').pathToFileURL(require('path').join(folder, name)).href;

module.exports = { TEXTS, uriOf };
