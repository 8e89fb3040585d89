'use strict';
// What is asked of packages: for each its calls, by `ask(label, call)`.

const fs = require('fs');
const path = require('path');

const VALUES = [
  undefined, null, true, 0, 1, -2.5, NaN, '', 'a', 'fooBar baz', '1,2;3', [], [1, 2, 3], [3, [1, [2]], 'a'], ['b', 'a', 'b'],
  [{ a: 1, b: 2 }, { a: 3, b: 2 }], {}, { a: 1, b: { c: [1, 2] } }, 'a', (x) => x, (x, y) => [x, y], new Date(0), /b+/g, new Map([[1, 2]]),
];

// What gives another answer each time, waits, or changes what comes behind.
const LEFT_OUT = new Set(['now', 'random', 'shuffle', 'sample', 'sampleSize', 'uniqueId', 'delay', 'defer', 'debounce', 'throttle', 'mixin', 'noConflict', 'runInContext', 'template', 'templateSettings', 'bindAll', 'constant']);

const copied = (value) => (typeof value === 'object' && value !== null && !(value instanceof Date || value instanceof RegExp || value instanceof Map) ? JSON.parse(JSON.stringify(value)) : value);

// Each function of a library, with lists of arguments that follow each other among the values.
function functionsOf(library, ask) {
  const names = Object.keys(library).filter((name) => typeof library[name] === 'function' && !LEFT_OUT.has(name)).sort();
  for (const [number, name] of names.entries()) {
    for (let at = 0; at < 12; at += 1) {
      const given = [0, 5, 11].slice(0, 1 + (at % 3)).map((step) => copied(VALUES[(number + at * 2 + step) % VALUES.length]));
      ask(`${name} ${at}`, () => library[name](...given));
    }
  }
}

const SOURCES = ['underscore/underscore.js', 'magic-string/dist/magic-string.cjs.js', 'commander/lib/command.js', 'semver/functions/cmp.js', 'esquery/parser.js', 'picomatch/lib/parse.js'];

const sources = () => SOURCES.map((name) => path.join('/usr/share/nodejs', name)).filter((file) => fs.existsSync(file)).map((file) => [path.basename(file), fs.readFileSync(file, 'utf8')]);

const PATTERNS = ['*.js', '**/*.ts', 'a{b,c}d', '!(x)', '[a-c]?', '{1..5}', 'src/**', '+(a|b)', '', '**', 'a/*/c', '.*'];
const NAMES = ['a.js', 'src/a.ts', 'abd', 'acd', 'b1', '3', 'src/lib/x', 'aab', '.hidden', 'a/b/c', 'x'];

const eachPair = (left, right, run) => left.forEach((one) => right.forEach((other) => run(one, other)));

// The calls by the package's name, each with what it has of the package.
const CALLS = {
  underscore: functionsOf,
  lodash: functionsOf,
  'color-convert': (convert, ask) => {
    for (const from of Object.keys(convert)) {
      for (const to of Object.keys(convert[from]).filter((name) => typeof convert[from][name] === 'function')) {
        ask(`${from} ${to}`, () => convert[from][to]([12, 34, 56]));
      }
    }
  },
  semver: (semver, ask) => {
    const versions = ['1.2.3', 'v2.0.0-beta.1', '0.0.1', 'x', '10.20.30+build', '1.2'];
    eachPair(versions, ['^1.0.0', '~0.0.1', '>=2 <11', '1.x || 2.x', '*', 'no'], (version, range) => ask(`${version} ${range}`, () => semver.satisfies(version, range)));
    eachPair(versions, ['major', 'minor', 'patch', 'prerelease', 'premajor'], (version, part) => ask(`inc ${version} ${part}`, () => semver.inc(version, part, 'rc')));
    eachPair(versions, versions, (one, other) => ask(`compare ${one} ${other}`, () => [semver.compare(one, other), semver.diff(one, other)]));
  },
  minimatch: (minimatch, ask) => eachPair(PATTERNS, NAMES, (pattern, name) => ask(`${pattern} ${name}`, () => [minimatch(name, pattern), String(minimatch.makeRe(pattern))])),
  picomatch: (picomatch, ask) => eachPair(PATTERNS, NAMES, (pattern, name) => ask(`${pattern} ${name}`, () => [picomatch(pattern)(name), picomatch.scan(pattern, { parts: true })])),
  micromatch: (micromatch, ask) => PATTERNS.forEach((pattern) => ask(pattern, () => [micromatch(NAMES, pattern), micromatch.braces(pattern, { expand: true })])),
  'brace-expansion': (expand, ask) => [...PATTERNS, '{a,b}{c,{d,e}}', '{01..10..3}', 'x{z..a}y'].forEach((pattern) => ask(pattern, () => expand(pattern))),
  acorn: (acorn, ask) => sources().forEach(([name, text]) => ask(name, () => JSON.stringify(acorn.parse(text, { ecmaVersion: 'latest', locations: true, ranges: true })))),
  esprima: (esprima, ask) => sources().forEach(([name, text]) => ask(name, () => [JSON.stringify(esprima.parseScript(text, { range: true, tokens: true })), esprima.tokenize(text).length])),
  'magic-string': (magic, ask) => sources().forEach(([name, text]) => ask(name, () => {
    const changed = new (magic.default || magic)(text);
    for (let at = 10; at + 20 < text.length; at += 997) changed.overwrite(at, at + 5, `<${at}>`).appendLeft(at + 9, '!');
    return [changed.toString(), changed.generateMap({ hires: true, source: name, includeContent: false }).toString()];
  })),
  'source-map': ({ SourceMapGenerator }, ask) => [2, 10, 60, 500].forEach((lines) => ask(`${lines} lines`, () => {
    const made = new SourceMapGenerator({ file: 'a.js', sourceRoot: lines > 10 ? '/root' : undefined });
    for (let line = 1; line < lines; line += 1) made.addMapping({ generated: { line, column: line % 7 }, original: { line: line * 2, column: line % 3 }, source: `${line % 4}.js`, name: `n${line}` });
    made.setSourceContent('1.js', 'text');
    return made.toString();
  })),
  'uri-js': (uri, ask) => eachPair(['http://a.b/c/../d?e=f#g', 'urn:isbn:1', 'mailto:a@b.c', '//x:80/', 'ws://h/%7e', 'é'], ['', '../x', '?y'], (one, other) => ask(`${one} ${other}`, () => [uri.parse(one), uri.normalize(one), uri.resolve(one, other), uri.equal(one, other)])),
  doctrine: (doctrine, ask) => ['@param {string=} a - b', '@returns {Array<{a: number, b: (string|null)}>}', '/** text\n * @type {function(new:A, ...number): void}\n */', '@see x {@link y}'].forEach((text) => ask(text, () => JSON.stringify(doctrine.parse(text, { unwrap: true, sloppy: true })))),
  esquery: (esquery, ask) => {
    const tree = require('/usr/share/nodejs/acorn').parse(sources()[0][1], { ecmaVersion: 'latest' });
    const found = (selector) => (esquery.default || esquery)(tree, selector).map(({ type, start }) => `${type} ${start}`);
    ['Identifier[name=/^_/]', 'IfStatement > BlockStatement', ':function :matches(ForStatement, WhileStatement)', 'CallExpression:has(Literal)', 'x y', 'ReturnStatement:nth-child(1)'].forEach((selector) => ask(selector, () => found(selector)));
  },
  levn: (levn, ask) => eachPair(['Number', '[Int]', '{a: String, b: Maybe Boolean}', '(Int, String)', 'Date | Number', '*'], ['1', '[1,2]', '{a: x}', '(1, b)', 'null', '"'], (type, text) => ask(`${type} ${text}`, () => levn.parse(type, text))),
  optionator: (optionator, ask) => {
    const made = optionator({ prepend: 'cmd [options]', options: [{ option: 'help', alias: 'h', type: 'Boolean', description: 'help' }, { option: 'count', type: 'Int', default: '3', description: 'how many' }, { heading: 'More' }, { option: 'names', type: '[String]', concatRepeatedArrays: true }] });
    ['', '-h', '--count 5', '--count x', '--names a --names b c', '--wrong', '--no-help'].forEach((words) => ask(words, () => made.parse(words)));
    ask('help', () => made.generateHelp());
  },
  commander: ({ Command }, ask) => ['', 'build a b', 'build --wide', 'wrong', '--count 4 build x', '--help'].forEach((words) => ask(words, () => {
    const told = [];
    const program = new Command('tool').exitOverride().configureOutput({ writeOut: (text) => told.push(text), writeErr: (text) => told.push(text) });
    program.option('-c, --count <n>', 'how many', Number, 1);
    program.command('build [files...]').option('-w, --wide').action((files, options) => told.push(files, options));
    try { program.parse(words === '' ? [] : words.split(' '), { from: 'user' }); } catch (error) { told.push(error.code, error.message); }
    return told;
  })),
  regenerate: (regenerate, ask) => [[0x61, 0x7a], [0x20, 0x2fff], [0xfff0, 0x1f600]].forEach(([from, to]) => ask(`${from}`, () => regenerate().addRange(from, to).remove(from + 3).toString())),
  'word-wrap': (wrap, ask) => [10, 20, 50].forEach((width) => ask(String(width), () => wrap('The quick brown fox jumps over the lazy dog and runs.', { width, indent: '> ' }))),
  'eslint-scope': (scope, ask) => sources().slice(0, 4).forEach(([name, text]) => ask(name, () => {
    const tree = require('/usr/share/nodejs/acorn').parse(text, { ecmaVersion: 2020, ranges: true });
    return scope.analyze(tree, { ecmaVersion: 2020, optimistic: true }).scopes.map(({ type, variables, references, through }) => [type, variables.map(({ name: of }) => of), references.length, through.length]);
  })),
  'json-stable-stringify': (stringify, ask) => VALUES.forEach((value, at) => ask(String(at), () => stringify({ z: value, a: [value] }, { space: at % 3 }))),
  punycode: (punycode, ask) => ['mañana.com', '☃-⌘.com', 'abc', 'джpумлатест@x.й'].forEach((text) => ask(text, () => [punycode.toASCII(text), punycode.encode(text), punycode.decode(punycode.encode(text)), punycode.ucs2.decode(text)])),
};

module.exports = { CALLS };
