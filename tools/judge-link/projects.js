'use strict';
// Small random projects: a statement a line, with imports of all forms, re-exports, stars, rings, ambiguities and names that
// nothing exports.

const NAMES = ['a', 'b', 'c', 'd', 'e', 'default'];

// How a name may be exported. `from` gives another module, and a name that it exports as like as not.
const EXPORTS = {
  declared: ({ name, local }) => (name === 'default' ? `export default function ${local}() {}` : `export const ${name} = 1;`),
  listed: ({ name, local }) => `const ${local} = 1; export { ${local} as ${name} };`,
  passed: ({ name, from }) => `export { ${from.name} as ${name} } from './${from.file}';`,
  imported: ({ name, local, from }) => `import { ${from.name} as ${local} } from './${from.file}';\nexport { ${local} as ${name} };`,
  namespace: ({ name, local, from }) => `import * as ${local} from './${from.file}';\nexport { ${local} as ${name} };`,
  collected: ({ name, from }) => `export * as ${name} from './${from.file}';`,
};

const IMPORTS = {
  one: ({ local, from }) => `import { ${from.name} as ${local} } from './${from.file}';`,
  byDefault: ({ local, from }) => `import ${local} from './${from.file}';`,
  whole: ({ local, from }) => `import * as ${local} from './${from.file}';`,
};

const bagOf = (shares) => Object.entries(shares).flatMap(([form, share]) => Array(share).fill(form));

// How often each form stands; re-exports are rarer, as Node goes no further behind one that is wrong.
const EXPORT_BAG = bagOf({ declared: 8, listed: 2, passed: 3, imported: 1, namespace: 1, collected: 1 });
const IMPORT_BAG = bagOf({ one: 8, byDefault: 1, whole: 1 });

// Which names each module exports, and of which modules it passes on all.
function plansOf(random) {
  const files = Array.from({ length: 2 + random.below(5) }, (_, place) => `m${place}.js`);
  return new Map(files.map((file) => [file, {
    names: random.some(NAMES, 1 + random.below(3)),
    stars: random.some(files, random.below(3)),
  }]));
}

// A module, and a name: mostly one that it exports itself or that one of its stars does.
function wantedOf(random, plans) {
  const file = random.pick([...plans.keys()]);
  const { names, stars } = plans.get(file);
  const known = [...names, ...stars.flatMap((star) => plans.get(star).names)];
  return { file, name: random.pick(random.chance(0.85) ? known : NAMES) };
}

function moduleText(random, plans, { names, stars }) {
  let locals = 0;
  const context = (name) => {
    locals += 1;
    return { name, local: `local${locals}`, from: wantedOf(random, plans) };
  };
  const imports = Array.from({ length: random.below(5) }, () => IMPORTS[random.pick(IMPORT_BAG)](context()));
  const exports = names.map((name) => EXPORTS[random.pick(EXPORT_BAG)](context(name)));
  return ['export {};', ...imports, ...exports, ...stars.map((file) => `export * from './${file}';`), ''].join('\n');
}

// The first file imports all others, so that each is reached.
function projectOf(random) {
  const plans = plansOf(random);
  const project = Object.fromEntries([...plans].map(([file, plan]) => [file, moduleText(random, plans, plan)]));
  const [first, ...others] = plans.keys();
  project[first] += others.map((file) => `import './${file}';\n`).join('');
  return project;
}

// What random projects seldom have: one namespace by two ways.
const twice = (lines) => ({
  'm0.js': "export {};\nimport { a as local1 } from './m1.js';\n",
  'm1.js': "export * from './m2.js';\nexport * from './m3.js';\n",
  'm2.js': `${lines}\n`,
  'm3.js': `${lines}\n`,
  'm4.js': 'export const b = 1;\n',
});
const FIXED = [
  twice("import * as local1 from './m4.js';\nexport { local1 as a };"),
  twice("export * as a from './m4.js';"),
];

module.exports = { FIXED, projectOf };
