'use strict';
// References and scopes of eslint-scope, in the same terms as the analyser's.

const { load } = require('../source-to-tree/load');
const { ByteOffsets, MARK_BYTES } = require('../source-to-tree/spans');

// eslint-scope knows no node for parentheses, so the text is parsed without them.
function analyse(text, goal) {
  const options = { ecmaVersion: 'latest', sourceType: goal, ranges: true, allowHashBang: true, allowReturnOutsideFunction: goal === 'script' };
  const ast = load('acorn').parse(text, options);
  return load('eslint-scope').analyze(ast, { ecmaVersion: 2022, sourceType: goal, ignoreEval: true, optimistic: true });
}

class EslintScopes {
  constructor(source, goal) {
    const marked = source.startsWith('\ufeff');
    const text = marked ? source.slice(1) : source;
    this.offsets = new ByteOffsets(text, marked ? MARK_BYTES : 0);
    this.manager = analyse(text, goal);
  }

  startsOf(variable) {
    return new Set(variable.identifiers.map(({ start }) => this.offsets.at(start)));
  }

  // By place: name, ways and where what is referred to is declared. A name may stand for several references.
  references() {
    const found = new Map();
    for (const scope of this.manager.scopes) {
      for (const reference of scope.references) {
        const start = this.offsets.at(reference.identifier.start);
        const entry = found.get(start) || { name: reference.identifier.name, read: false, write: false, starts: null };
        entry.read = entry.read || reference.isRead();
        entry.write = entry.write || reference.isWrite();
        if (reference.resolved && reference.resolved.defs.length > 0) entry.starts = this.startsOf(reference.resolved);
        found.set(start, entry);
      }
    }
    return found;
  }

  // Each scope with its kind, where it starts and the names that it declares.
  scopes() {
    return this.manager.scopes.map((scope) => ({
      type: scope.type,
      node: scope.block,
      start: this.offsets.at(scope.block.start),
      names: new Set(scope.variables.filter(({ defs }) => defs.length > 0).map(({ name }) => name)),
    }));
  }
}

module.exports = { EslintScopes };
