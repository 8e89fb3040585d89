'use strict';
// Where specifiers lead: enhanced-resolve, with the settings of JavaScript or of TypeScript by the file that names them.

const fs = require('fs');
const path = require('path');
const { fileURLToPath } = require('url');
const { load } = require('../source-to-tree/load.js');
const { RunFault } = require('../bolgwyr/faults.js');
const { candidates, configurations } = require('./tsconfig.js');
const { isBuiltin, isDeclarations, isInPackage, isRelative, isTyped, packageOf } = require('./kinds.js');

// How long, in milliseconds, what was read of folders and package.json files is held: longer than a run takes.
const HELD = 600_000;

const LANGUAGES = {
  js: {
    extensions: ['.js', '.mjs', '.cjs', '.jsx', '.ts', '.mts', '.cts', '.tsx', '.json'],
    extensionAlias: {
      '.js': ['.js', '.ts', '.tsx', '.jsx'],
      '.mjs': ['.mjs', '.mts'],
      '.cjs': ['.cjs', '.cts'],
      '.jsx': ['.jsx', '.tsx'],
    },
    mainFields: ['module', 'main'],
    conditionNames: ['node'],
  },
  ts: {
    extensions: ['.ts', '.tsx', '.d.ts', '.mts', '.cts', '.js', '.jsx', '.mjs', '.cjs', '.json'],
    extensionAlias: {
      '.js': ['.ts', '.tsx', '.d.ts', '.js', '.jsx'],
      '.mjs': ['.mts', '.d.mts', '.mjs'],
      '.cjs': ['.cts', '.d.cts', '.cjs'],
      '.jsx': ['.tsx', '.d.ts', '.jsx'],
    },
    mainFields: ['types', 'typings', 'module', 'main'],
    conditionNames: ['types', 'node'],
  },
};

// The package's index makes resolvers with settings of its own, for which Debian's version wants a Node that Debian built;
// the factory alone works with any Node.
function loadFactory() {
  try {
    const { createResolver } = load('enhanced-resolve/lib/ResolverFactory');
    return { createResolver, CachedInputFileSystem: load('enhanced-resolve/lib/CachedInputFileSystem') };
  } catch (error) {
    throw error.name === 'Refusal' ? new RunFault(error.message) : error;
  }
}

function resolversOf() {
  const { createResolver, CachedInputFileSystem } = loadFactory();
  const fileSystem = new CachedInputFileSystem(fs, HELD);
  const made = new Map();
  return (lang, way) => {
    const condition = way === 'require' ? ['require'] : ['import', 'module'];
    const key = `${lang} ${condition[0]}`;
    if (!made.has(key)) {
      const settings = LANGUAGES[lang];
      const conditionNames = [...settings.conditionNames, ...condition];
      const ours = { conditionNames, fileSystem, useSyncFileSystemCalls: true, modules: ['node_modules'] };
      made.set(key, createResolver({ ...settings, ...ours }));
    }
    return made.get(key);
  };
}

// What the resolver says: {file, query}, or {fault}.
function ask(resolver, folder, text) {
  let answer = { fault: `no file for ${text}` };
  resolver.resolve({}, folder, text, {}, (error, found, request) => {
    if (error) {
      answer = { fault: error.message };
    } else if (found === false) {
      answer = { ignored: true };
    } else {
      answer = { file: request.path, query: `${request.query || ''}${request.fragment || ''}` };
    }
  });
  return answer;
}

// The declarations that stand beside a package's file of JavaScript.
function declarationsBeside(file) {
  const beside = file.replace(/\.([cm]?)jsx?$/i, '.d.$1ts');
  return beside !== file && fs.existsSync(beside) ? beside : undefined;
}

const typesPackage = (text) => `@types/${text.replace(/^@([^/]+)\//, '$1__')}`;

const folderExists = (folder) => fs.statSync(folder, { throwIfNoEntry: false })?.isDirectory() === true;

// Whether a package of this name is installed for a folder.
function isInstalled(folder, name) {
  let at = folder;
  for (;;) {
    if (folderExists(path.join(at, 'node_modules', name))) {
      return true;
    }
    const above = path.dirname(at);
    if (above === at) {
      return false;
    }
    at = above;
  }
}

class Resolver {
  constructor() {
    this.resolverOf = resolversOf();
    this.configurationOf = configurations();
    this.known = new Map();
  }

  // Where a text leads from a file: {file}, {external, why} or {nowhere}. `way` is that of the specifier.
  resolve(from, text, way) {
    const folder = path.dirname(from);
    const key = `${folder}\0${isTyped(from)}${way === 'require'}\0${text}`;
    if (!this.known.has(key)) {
      this.known.set(key, this.find(folder, isTyped(from) ? 'ts' : 'js', text, way));
    }
    return this.known.get(key);
  }

  find(folder, lang, text, way) {
    if (text === '') {
      return { nowhere: "'' leads to no file" };
    }
    if (text.startsWith('file:')) {
      return this.fileOfUrl(folder, lang, text, way);
    }
    if (isBuiltin(text)) {
      return { external: text.startsWith('node:') ? text : `node:${text}`, why: 'builtin' };
    }
    if (/^[a-z][a-z0-9+.-]*:/i.test(text) || text.includes('!')) {
      return { external: text, why: 'loader' };
    }
    const resolver = this.resolverOf(lang, way);
    if (isRelative(text) || text.startsWith('#') || path.isAbsolute(text)) {
      return this.local(resolver, folder, text);
    }
    return this.mapped(resolver, folder, text) || this.bare(resolver, folder, lang, text);
  }

  fileOfUrl(folder, lang, text, way) {
    try {
      return this.find(folder, lang, fileURLToPath(text), way);
    } catch {
      return { nowhere: `'${text}' is no URL of a file` };
    }
  }

  // A file, an asset that a loader makes something of, or nothing.
  answer(found) {
    if (found.ignored) {
      return { external: 'ignored', why: 'ignored' };
    }
    return found.query ? { external: `${found.file}${found.query}`, why: 'loader' } : { file: found.file };
  }

  local(resolver, folder, text) {
    const found = ask(resolver, folder, text);
    if (found.fault === undefined) {
      return this.answer(found);
    }
    if (text.startsWith('/')) {
      return { external: text, why: 'absolute' };
    }
    const detail = text.startsWith('#') ? ': no `imports` of package.json lead to a file' : '';
    return { nowhere: `'${text}' leads to no file${detail}` };
  }

  // By `paths` and `baseUrl`; null where they say nothing.
  mapped(resolver, folder, text) {
    const config = this.configurationOf(folder);
    const { pattern, files } = candidates(config, text);
    for (const file of files) {
      const found = ask(resolver, folder, file);
      if (found.fault === undefined) {
        return this.answer(found);
      }
    }
    if (pattern === null || pattern.before === '' || isInstalled(folder, packageOf(text))) {
      return null;
    }
    return { nowhere: `'${text}' leads to no file: \`${pattern.key}\` in ${path.basename(config.file)} leads to none` };
  }

  bare(resolver, folder, lang, text) {
    const found = ask(resolver, folder, text);
    const typed = lang === 'ts' ? this.typesOf(resolver, folder, text, found) : undefined;
    if (typed !== undefined) {
      return { file: typed };
    }
    if (found.fault === undefined) {
      return this.answer(found);
    }
    const name = packageOf(text);
    if (!isInstalled(folder, name)) {
      return { external: text, why: 'absent' };
    }
    const detail = /is not exported/.test(found.fault) ? ' by its `exports`' : '';
    return { nowhere: `'${text}' leads to no file of the package ${name}${detail}` };
  }

  // The declarations of a package, as TypeScript looks for them.
  typesOf(resolver, folder, text, found) {
    if (found.file !== undefined) {
      if (isDeclarations(found.file) || !isInPackage(found.file)) {
        return undefined;
      }
      const beside = declarationsBeside(found.file);
      if (beside !== undefined) {
        return beside;
      }
    }
    return ask(resolver, folder, typesPackage(text)).file;
  }
}

module.exports = { Resolver };
