'use strict';
// Modules of TypeScript of a few names: namespaces, enums and blocks that share names, qualified names, imports of them, and exports; and,
// where they are to be wide, type parameters, `infer`, keys of mapped types, signatures, `declare` and catch names.

const { seeded } = require('../random');

const NAMES = ['a', 'b', 'N', 'M'];
const DEEPEST = 3;

// The parts of a module; each takes where it stands and gives text. A place has `depth`, and where it is: `top`, `namespace` or `block`.
function writer(below, wide) {
  let numbered = 0;
  const one = (list) => list[below(list.length)];
  const fresh = () => `v${(numbered += 1)}`;
  const names = NAMES.slice(0, 2 + below(NAMES.length - 1));
  const name = () => one(names);

  const qualified = () => [name(), ...Array.from({ length: below(3) }, name)].join('.');
  const exported = ({ where }) => (where !== 'block' && below(2) === 0 ? 'export ' : '');
  const inside = (place, where) => ({ where, depth: place.depth + 1 });

  function list(place, many) {
    return Array.from({ length: below(many) + 1 }, () => statement(place)).join(' ');
  }

  const member = () => (below(2) === 0 ? name() : `${name()} = ${below(2) === 0 ? name() : qualified()}`);
  const members = () => [...new Map(Array.from({ length: below(3) + 1 }, member).map((text) => [text.split(' ')[0], text])).values()].join(', ');

  const uses = [
    () => `${qualified()};`,
    () => `${name()};`,
    () => `let ${fresh()}: ${qualified()};`,
    () => `let ${fresh()}: typeof ${qualified()};`,
    () => `type ${fresh()} = ${qualified()}[];`,
    () => `function ${fresh()}(${fresh()} = ${name()}) { ${name()}; }`,
    () => `({ ${name()} });`,
  ];
  const declarations = [
    (place) => `${exported(place)}const ${name()} = 1;`,
    (place) => `${exported(place)}let ${name()}: ${qualified()};`,
    (place) => `${exported(place)}type ${name()} = 1;`,
    (place) => `${exported(place)}interface ${name()} {}`,
    (place) => `${exported(place)}class ${name()} {}`,
    (place) => `${exported(place)}function ${name()}() { ${one(uses)()} }`,
  ];
  const widely = [
    () => `type ${name()}<${name()}> = ${name()} extends [infer ${name()}, ${name()}] ? ${name()} : ${name()};`,
    () => `function ${name()}<${name()} extends typeof ${name()}>(${name()}: ${name()}, ${fresh()} = ${name()}): typeof ${name()} { let ${fresh()}: ${name()}; ${one(uses)()} }`,
    () => `type ${fresh()} = { [${name()} in ${name()} as ${name()}]: ${name()} };`,
    () => `let ${fresh()}: { [${name()}: string]: typeof ${name()}; ${fresh()}<${name()}>(${name()}: ${name()}): ${name()}; };`,
    () => `let ${fresh()}: <${name()}>(${name()}: ${name()}) => typeof ${name()};`,
    (place) => `${exported(place)}class ${name()}<${name()}> { ${fresh()}: ${name()}; ${fresh()}(${name()}: ${name()}) { ${one(uses)()} } }`,
    () => `let ${fresh()} = class ${name()}<${name()}> { ${fresh()}: ${name()} = ${name()}; };`,
    () => `let ${fresh()} = function ${name()}(${name()} = ${name()}) { ${one(uses)()} };`,
    (place) => `${exported(place)}interface ${name()}<${name()}> { ${fresh()}: ${name()} }`,
    () => `try { ${one(uses)()} } catch (${name()}) { ${one(uses)()} }`,
    () => `for (const ${name()} of [${name()}]) ${name()};`,
    () => `{ var ${name()} = 1; ${one(uses)()} }`,
    (place) => (place.where === 'block' ? one(uses)() : `declare namespace ${name()} { const ${name()}: 1; type ${name()} = ${name()}; }`),
    (place) => (place.where === 'top' ? `declare global { interface ${name()} {} const ${name()}: ${name()}; }` : one(uses)()),
  ];
  const blocks = [
    (place) => `${exported(place)}namespace ${below(4) === 0 ? `${name()}.${name()}` : name()} { ${list(inside(place, 'namespace'), 3)} }`,
    (place) => `${exported(place)}${below(4) === 0 ? 'const ' : ''}enum ${name()} { ${members()} }`,
    (place) => `${exported(place)}import ${name()} = ${name()}.${name()};`,
  ];
  const exports = [
    () => `export { ${name()} as ${fresh()} };`,
    () => `export type { ${name()} as ${fresh()} };`,
    () => `export { type ${name()} as ${fresh()} };`,
  ];

  // Namespaces stand at the top and in namespaces alone, lists of exports at the top.
  function statement(place) {
    const isOuter = place.where !== 'block' && place.depth < DEEPEST;
    switch (below(wide ? 11 : 8)) {
      case 0:
      case 1:
        return isOuter ? one(blocks)(place) : one(uses)();
      case 2:
        return isOuter ? blocks[0](place) : one(uses)();
      case 3:
        return place.where === 'top' ? one(exports)() : one(uses)();
      case 4:
        return place.depth < DEEPEST ? `{ ${list(inside(place, 'block'), 3)} }` : one(uses)();
      case 5:
      case 6:
        return one(declarations)(place);
      case 8:
      case 9:
      case 10:
        return one(widely)(place);
      default:
        return one(uses)();
    }
  }

  return () => `export {}; ${list({ where: 'top', depth: 0 }, 6)}`;
}

// The module of a seed.
const typedModule = (seed, { wide = false } = {}) => writer(seeded(seed), wide)();

module.exports = { typedModule };
