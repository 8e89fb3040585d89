'use strict';
// Which modules of a set know an exported name, and where: by imports, and by exports that pass it on under the same name.

// How modules use each module of the set: `{ module, way, .. }` by the module that is used.
function usesByModule(modules) {
  const uses = new Map(modules.map((module) => [module, []]));
  const add = (module, specifier, use) => {
    const { to } = specifier;
    if (to !== undefined && to.module !== undefined) {
      uses.get(to.module).push({ module, specifier, ...use });
    }
  };
  for (const module of modules.filter(({ outline }) => outline !== null)) {
    const { imports, exports, stars } = module.outline;
    imports.forEach((wanted) => add(module, wanted.specifier, { way: wanted.name === null ? 'namespace' : 'import', wanted }));
    const passed = [...exports.values()].filter(({ specifier }) => specifier !== null);
    passed.forEach((entry) => add(module, entry.specifier, { way: entry.what === 'passed' ? 'passed' : 'whole', entry }));
    stars.forEach((star) => add(module, star.specifier, { way: 'star' }));
    const known = new Set([...imports, ...passed, ...stars].map(({ specifier }) => specifier));
    const others = module.specifiers.filter((one) => !known.has(one) && (one.way !== 'import' || one.typed));
    others.forEach((specifier) => add(module, specifier, { way: 'whole' }));
  }
  return uses;
}

class Followers {
  constructor(modules, name) {
    this.name = name;
    this.uses = usesByModule(modules);
    this.touched = new Map(); // module -> what changes in it
    this.exporting = new Set(); // the modules that export the name
    this.wholes = []; // uses of all that such a module exports
  }

  touch(module) {
    if (!this.touched.has(module)) {
      this.touched.set(module, { specifiers: new Map(), isLocal: false, isExported: false });
    }
    return this.touched.get(module);
  }

  addParts(module, { start }, parts) {
    const { specifiers } = this.touch(module);
    specifiers.set(start, [...(specifiers.get(start) || []), ...parts]);
  }

  // A local of the name that a list exports is exported under the new name, too.
  addLocal(module) {
    const entry = module.outline.exports.get(this.name);
    this.touch(module).isLocal = true;
    if (entry !== undefined && entry.local === this.name && entry.specifier === null) {
      this.touch(module).isExported = entry.what === 'declared';
      if (entry.what === 'listed') {
        this.addParts(module, entry.span, ['exported']);
      }
      this.exporting.add(module);
    }
  }

  follow({ module, way, wanted, entry, specifier }) {
    if (way === 'import' && wanted.name === this.name) {
      this.addParts(module, wanted.span, ['imported']);
      if (wanted.local === this.name) {
        this.addLocal(module);
      }
    } else if (way === 'passed' && entry.local === this.name) {
      const isSame = entry.name === this.name;
      this.addParts(module, entry.span, isSame ? ['local', 'exported'] : ['local']);
      if (isSame) {
        this.exporting.add(module);
      }
    } else if (way === 'star' && !module.outline.exports.has(this.name)) {
      this.exporting.add(module);
    } else if (way === 'namespace' || way === 'whole') {
      this.wholes.push({ module, wanted, specifier });
    }
  }
}

// From the module that declares the name at its top: `touched`, `exporting` and `wholes`.
function followersOf(modules, origin, name) {
  const followers = new Followers(modules, name);
  followers.addLocal(origin);
  // Modules that are added meanwhile are visited, too.
  for (const module of followers.exporting) {
    followers.uses.get(module).forEach((use) => followers.follow(use));
  }
  return followers;
}

module.exports = { followersOf };
