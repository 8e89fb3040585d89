'use strict';
// Sloppy programs of functions and classes whose headers tell what their names mean: parameters with defaults, closures and
// computed keys, called without arguments. A program tells by calls of `see` and `call`, which the runner has.

const { seeded } = require('./random');

const NAMES = ['a', 'b', 'f'];
const DEEPEST = 3;
const HEAD = 'function run(get) { call(() => { const it = get(); return typeof it === "function" ? () => it() : it; }); }';

function writer(below) {
  let numbered = 0;
  const number = () => (numbered += 1);
  const name = () => NAMES[below(NAMES.length)];
  const tag = () => `/*#${number()}*/`;
  const see = () => `see(() => ${name()});`;
  const one = (makers) => makers[below(makers.length)]();

  function initializer(depth) {
    return one([
      () => `${number()}`,
      () => `(see(() => ${name()}), ${number()})`,
      () => `(() => ${name()})`,
      () => `(() => ${name()} = ${number()})`,
      () => (depth < DEEPEST ? functionExpression(depth + 1) : `${number()}`),
    ]);
  }

  function parameter(depth) {
    return one([
      name,
      () => `${name()} = ${initializer(depth)}`,
      () => `[${name()} = ${initializer(depth)}] = []`,
      () => `{ [(see(() => ${name()}), "key")]: ${name()} } = {}`,
    ]);
  }

  const parameters = (depth) => Array.from({ length: below(4) }, () => parameter(depth)).join(', ');
  const list = (depth) => Array.from({ length: 1 + below(4) }, () => statement(depth)).join(' ');
  const body = (depth) => `{ ${tag()} ${list(depth)} }`;
  const staticBlock = (depth) => `static { ${list(depth + 1)} }`;

  function nested(depth) {
    if (depth >= DEEPEST) return see();
    return one([
      () => `run(() => ${functionExpression(depth + 1)});`,
      () => `class ${name()} { ${tag()} ${staticBlock(depth)} static m(${parameters(depth)}) ${body(depth + 1)} }`,
      () => `see(() => (class ${name()} { ${tag()} ${staticBlock(depth)} }));`,
    ]);
  }

  function statement(depth) {
    return one([
      see,
      see,
      () => `var ${name()} = ${number()};`,
      () => `var ${name()};`,
      () => `let ${name()} = ${number()};`,
      () => `function ${name()}() { ${tag()} }`,
      () => `{ function ${name()}() { ${tag()} } ${see()} }`,
      () => `run(() => ${name()});`,
      () => nested(depth),
      () => nested(depth),
      () => nested(depth),
    ]);
  }

  function functionExpression(depth) {
    return one([
      () => `(function (${parameters(depth)}) ${body(depth)})`,
      () => `(function ${name()}(${parameters(depth)}) ${body(depth)})`,
      () => `((${parameters(depth)}) => ${body(depth)})`,
    ]);
  }

  return () => `${HEAD} ${list(0)} run(() => ${functionExpression(0)}); ${NAMES.map((text) => `see(() => ${text});`).join(' ')}`;
}

const program = (seed) => writer(seeded(seed))();

module.exports = { program };
