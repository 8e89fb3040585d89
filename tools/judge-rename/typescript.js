'use strict';
// TypeScript's language service as a second opinion: the places that it would rename in a TypeScript text.

const { nameEnd } = require('../source-to-tree/trivia.js');
const { load } = require('../source-to-tree/load.js');

// A service that knows one file and no library.
function serviceFor(file, text) {
  const ts = load('typescript');
  const { ScriptTarget, ModuleKind } = ts;
  const settings = { noLib: true, noResolve: true, target: ScriptTarget.Latest, module: ModuleKind.ESNext, experimentalDecorators: true };
  const host = {
    getScriptFileNames: () => [file],
    getScriptVersion: () => '1',
    getScriptSnapshot: (name) => (name === file ? ts.ScriptSnapshot.fromString(text) : undefined),
    getCurrentDirectory: () => '/',
    getCompilationSettings: () => settings,
    getDefaultLibFileName: () => 'lib.d.ts',
    fileExists: (name) => name === file,
    readFile: (name) => (name === file ? text : undefined),
  };
  return ts.createLanguageService(host);
}

// Errors of names, namespaces and modules that aren't there, since there is one file and no library.
const MISSING = new Set([2304, 2305, 2307, 2318, 2339, 2503, 2552, 2580, 2583, 2584, 2694, 2792]);

class TypeScriptOpinion {
  constructor(file, text) {
    this.file = `/${file.replace(/^.*\//, '')}`;
    this.text = text;
    this.mark = text.startsWith('\ufeff') ? 1 : 0;
    this.service = serviceFor(this.file, text.slice(this.mark));
    this.isFaultless = this.service.getSemanticDiagnostics(this.file).every(({ code }) => MISSING.has(code));
  }

  // The places in the string at which the name at a place is renamed, or null where the service doesn't rename it.
  places(index) {
    const found = this.service.findRenameLocations(this.file, index - this.mark, false, false, true);
    return found === undefined ? null : found.map(({ textSpan }) => textSpan.start + this.mark).sort((a, b) => a - b);
  }

  // The service looks for names as they are spelled, so it misses those with escapes.
  isEscaped(place) {
    return this.text.slice(place, nameEnd(this.text, place)).includes('\\');
  }

  // What differs from the places of edits, in words, or null; undefined where there is no second opinion: also in a file with errors,
  // such as names that are declared twice. The service renames in comments of JSDoc, too, and a type apart from a variable of its name.
  differsFrom(declarations, ours, comments) {
    const found = this.isFaultless ? declarations.map((index) => this.places(index)) : [null];
    if (found.includes(null)) {
      return undefined;
    }
    const all = [...new Set(found.flat())];
    const theirs = all.filter((place) => !comments.some(([start, end]) => start <= place && place < end));
    const alone = ours.filter((place) => !theirs.includes(place) && !this.isEscaped(place));
    const missing = theirs.filter((place) => !ours.includes(place));
    return alone.length + missing.length === 0 ? null : `TypeScript: here alone ${alone}, there alone ${missing}`;
  }
}

module.exports = { TypeScriptOpinion };
