'use strict';
// What is an identifier (ECMAScript 12.7), and where a word can't be one.

const IDENTIFIER = /^[$_\p{ID_Start}][$\u200c\u200d\p{ID_Continue}]*$/u;

// Escapes (`\u0061`) are spellings of an identifier, none of its characters.
const isIdentifier = (name) => IDENTIFIER.test(name);

// What is wrong with a name that is no identifier, or null.
function unfit(name) {
  return isIdentifier(name) ? null : `${JSON.stringify(name)} is no identifier${name.includes('\\') ? ': escapes are refused' : ''}`;
}

const words = (text) => new Set(text.split(' '));

const RESERVED = words('break case catch class const continue debugger default delete do else enum export extends false finally for '
  + 'function if import in instanceof new null return super switch this throw true try typeof var void while with');
const STRICT = words('implements interface let package private protected public static yield');
const PREDEFINED_TYPES = words('any bigint boolean never number object string symbol undefined unknown void');

// Where words can't be names: `holds` is asked about the place of an occurrence (place-kind.js); `section` is ECMAScript's.
const RULES = [
  { words: RESERVED, where: 'is a reserved word', section: '12.7.2', holds: () => true },
  { words: STRICT, where: 'is reserved in strict code', section: '12.7.2', holds: (place) => place.strict },
  { words: words('await'), where: 'is reserved in modules', section: '13.1.1', holds: (place) => place.module },
  { words: words('await'), where: 'is reserved in async functions', section: '13.1.1', holds: (place) => place.async },
  { words: words('await'), where: 'is reserved in static blocks', section: '15.7.1', holds: (place) => place.staticBlock },
  { words: words('yield'), where: 'is reserved in generators', section: '13.1.1', holds: (place) => place.generator },
  { words: words('let'), where: "can't be bound by let, const or class", section: '14.3.1.1', holds: (place) => place.lexical },
  { words: words('arguments eval'), where: "can't be bound in strict code", section: '13.1.1', holds: (place) => place.strict },
  { words: words('arguments'), where: 'means the arguments of a call', section: '10.2.11', holds: () => true },
  { words: words('eval'), where: 'makes calls of its name run code in their scope', section: '13.3.6.1', holds: () => true },
  { words: words('__proto__'), where: 'has a meaning of its own in objects', section: '13.2.5.5', holds: () => true },
  { words: words('undefined NaN Infinity'), where: "is a constant of the global object", section: '19.1', holds: (place) => place.scriptTop },
  { words: PREDEFINED_TYPES, where: 'is the name of a type of TypeScript', section: null, holds: (place) => place.type },
];

// The rule that forbids the name at a place, or null.
function ruleAgainst(name, place) {
  return RULES.find((rule) => rule.words.has(name) && rule.holds(place)) || null;
}

// Names that some rule forbids somewhere.
const isSpecial = (name) => RULES.some((rule) => rule.words.has(name));

const reason = ({ where, section }, name) => `\`${name}\` ${where}${section === null ? '' : ` (ECMAScript ${section})`}`;

module.exports = { isIdentifier, isSpecial, reason, ruleAgainst, unfit };
