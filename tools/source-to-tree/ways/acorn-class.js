'use strict';
// The parser class that the conversion reads JavaScript with: acorn's, which leaves to the analysis what that tells better, and is
// spared what takes long.

// What acorn would refuse, and the analysis tells with both places.
const LEFT_TO_THE_ANALYSIS = /^(?:Identifier '[^#].*' has already been declared|Argument name clash)$/;

const DYNAMIC_IMPORT_OPTIONS = { what: 'options of `import()`' };

// Acorn's patterns of words that are names nowhere.
const PATTERNS = ['keywords', 'reservedWords', 'reservedWordsStrict', 'reservedWordsStrictBind'];
const ALTERNATIVES = /^\^\(\?:([\w|]*)\)\$$/;

// In the place of a pattern that is a list of words: to look a word up takes less than to match it.
class Words {
  constructor(list) {
    this.set = new Set(list.split('|'));
  }

  test(word) {
    return this.set.has(word);
  }
}

const made = new Map(); // by the texts of patterns: what stands in their place

function testerFor(pattern) {
  const { source } = pattern;
  let tester = made.get(source);
  if (tester === undefined) {
    const found = ALTERNATIVES.exec(source);
    tester = found === null ? pattern : new Words(found[1]);
    made.set(source, tester);
  }
  return tester;
}

const ASCII_END = 128;
const IN_WORDS = Uint8Array.from({ length: ASCII_END }, (_, unit) => (/[\w$]/.test(String.fromCharCode(unit)) ? 1 : 0));

const TAB = 9;
const LINE_FEED = 10;
const RETURN = 13;
const SPACE = 32;
const SLASH = 47;
const BACKSLASH = 92;

// The class over one of acorn's.
function classOver(Base) {
  return class extends Base {
    constructor(...given) {
      super(...given);
      for (const name of PATTERNS) this[name] = testerFor(this[name]);
      // Acorn adds this property at the first template of a text. All parsers are of one shape where it is there before, and the engine
      // makes optimized code for one shape.
      this.inTemplateElement = false;
    }

    // Redeclarations pass.
    raiseRecoverable(at, message) {
      if (!LEFT_TO_THE_ANALYSIS.test(message)) super.raiseRecoverable(at, message);
    }

    // A comma in `import()` that the parser doesn't take is marked.
    parseDynamicImport(node) {
      try {
        return super.parseDynamicImport(node);
      } catch (error) {
        if (node.source && error.pos >= node.source.end && this.input[error.pos] === ',') error.syntax = DYNAMIC_IMPORT_OPTIONS;
        throw error;
      }
    }

    // Passes spaces and line ends of ASCII; comments and all other spaces are left to acorn, which has calls for each character.
    skipSpace() {
      const { input } = this;
      let at = this.pos;
      let unit = input.charCodeAt(at);
      while (unit === SPACE || unit === LINE_FEED || unit === RETURN || unit === TAB) unit = input.charCodeAt(++at);
      this.pos = at;
      if (unit === SLASH || unit < SPACE || unit >= ASCII_END) super.skipSpace();
    }

    // Reads a word of ASCII without escapes, as nearly all are; others are left to acorn.
    readWord1() {
      const { input, pos } = this;
      let end = pos;
      let unit = input.charCodeAt(end);
      while (unit < ASCII_END && IN_WORDS[unit] === 1) unit = input.charCodeAt(++end);
      if (unit === BACKSLASH || unit >= ASCII_END) return super.readWord1();
      this.containsEsc = false;
      this.pos = end;
      return input.slice(pos, end);
    }
  };
}

module.exports = { classOver };
