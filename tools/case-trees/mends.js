'use strict';
// Programs that TypeScript's compiler refuses, or that no source gives: what is read in their place, of the same length, and
// how each row of its tree is put right. A row is depth, role, kind, start, end, text and marks.

const KIND = 2;
const TEXT = 5;
const MARKS = 6;

// `await` as a name.
const AWAIT_AS_A_NAME = {
  names: ['await-as-a-reference.mjs', 'await-as-a-label.mjs', 'await-as-a-reference-in-a-static-block.js',
    'await-as-a-label-in-a-static-block.js', 'await-in-a-block-in-a-static-block.js', 'await-in-a-static-block-of-a-module.mjs'],
  read: (source) => source.replace('await', 'avait'),
  mend(row) {
    if (row[TEXT] === 'avait') row[TEXT] = 'await';
  },
};

// Properties marked `accessor`.
const ACCESSOR = {
  names: ['arguments-in-an-accessor.ts', 'an-abstract-accessor-property.ts', 'a-member-of-super-in-an-accessor-property.ts'],
  read: (source) => source.replace('accessor', 'readonly'),
  mend(row) {
    if (row[KIND] !== 'PropertyDefinition') return;
    row[KIND] = 'AccessorProperty';
    row[MARKS] = row[MARKS].filter((mark) => mark !== 'readonly');
  },
};

// Declarations with `using`, and with `await using`.
const USING = {
  names: ['using-at-the-top-of-a-script.js', 'using-in-a-block.js', 'using-in-a-function.js', 'using-in-the-head-of-a-loop.js',
    'using-in-a-module.mjs', 'using-in-commonjs.cjs', 'using-in-a-static-block.js'],
  read: (source) => source.replace('using', 'const'),
  mend(row) {
    if (row[KIND] === 'VariableDeclaration') row[TEXT] = 'using';
  },
};
const AWAIT_USING = {
  names: ['await-using-at-the-top-of-a-script.js', 'await-using-in-a-static-block.js',
    'await-using-in-a-block-in-a-static-block.js', 'await-using-in-a-function-in-a-static-block.js',
    'await-using-in-an-arrow-in-a-static-block.js'],
  read: (source) => source.replace('await using', 'const      '),
  mend(row) {
    if (row[KIND] === 'VariableDeclaration') row[TEXT] = 'await using';
  },
};

// A private member of an optional chain.
const PRIVATE_MEMBER_OF_A_CHAIN = {
  names: ['a-delete-of-a-private-member-of-a-chain.js'],
  read: (source) => source.replace('?.#a', '?._a'),
  mend(row) {
    if (row[KIND] === 'StaticMemberExpression') row[KIND] = 'PrivateFieldExpression';
    if (row[TEXT] === '_a') row.splice(1, TEXT, 'field', 'PrivateIdentifier', row[3], row[4], 'a');
  },
};

// A constructor whose key is computed: no source gives it.
const COMPUTED_CONSTRUCTOR = {
  names: ['a-constructor-whose-key-is-computed.js'],
  read: (source) => source,
  mend(row) {
    if (row[KIND] === 'MethodDefinition') row[TEXT] = 'constructor';
  },
};

// A string whose text has as many bytes as its spelling, quotes included: no source gives it.
const TEXT_AS_LONG_AS_ITS_SPELLING = {
  names: ['a-string-whose-text-has-as-many-bytes.js'],
  read: (source) => source,
  mend(row) {
    if (row[KIND] === 'StringLiteral' && row[TEXT] === '\u0001') row[TEXT] = 'abcd';
  },
};

const MENDS = [AWAIT_AS_A_NAME, ACCESSOR, USING, AWAIT_USING, PRIVATE_MEMBER_OF_A_CHAIN, COMPUTED_CONSTRUCTOR, TEXT_AS_LONG_AS_ITS_SPELLING];

module.exports = { MENDS };
