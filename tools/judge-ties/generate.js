'use strict';
// Sloppy programs of a few names in nested functions, blocks, catch clauses, bodies of `if`, cases, classes and headers, with
// `with` and direct `eval` now and then. A program tells what its names mean by calls of `see` and `call`, which the runner has.

const { seeded } = require('./random');

const NAMES = ['a', 'b', 'f'];
const DEEPEST = 4;

// The parts of a program; each takes what is known of the place and gives text.
function writer(below) {
  let numbered = 0;
  const one = (list) => list[below(list.length)];
  const number = () => (numbered += 1);
  const names = below(8) === 0 ? [...NAMES.slice(0, 2), 'arguments'] : NAMES.slice(0, 1 + below(3));
  const name = () => one(names);
  const tag = () => `/*#${number()}*/`;
  const use = () => {
    switch (below(5)) {
      case 0:
        return `see(() => ${name()} = ${number()});`;
      case 1:
        return `call(() => ${name()});`;
      default:
        return `see(() => ${name()});`;
    }
  };

  function list(depth, many) {
    let text = '';
    for (let left = below(many) + 1; left > 0; left -= 1) text += `${statement(depth)} `;
    return text;
  }
  const block = (depth) => `{ ${list(depth + 1, 3)}}`;

  function initializer(depth) {
    if (depth < DEEPEST && below(6) === 0) return functionExpression(depth + 1);
    return below(5) === 0 ? `(see(() => ${name()}), ${number()})` : `${number()}`;
  }

  function parameters(depth) {
    const many = below(3);
    const made = [];
    for (let at = 0; at < many; at += 1) made.push(below(3) === 0 ? `${name()} = ${initializer(depth)}` : name());
    return [...new Set(made)].join(', ');
  }

  const directive = () => (below(20) === 0 ? '"use strict"; ' : '');
  const body = (depth) => `{ ${tag()} ${directive()}${list(depth + 1, 4)}}`;
  const functionDeclaration = (depth) => `function ${name()}(${parameters(depth)}) ${body(depth)}`;

  function functionExpression(depth) {
    switch (below(4)) {
      case 0:
        return `((${parameters(depth)}) => ${body(depth)})`;
      case 1:
        return `(function (${parameters(depth)}) ${body(depth)})`;
      default:
        return `(function ${name()}(${parameters(depth)}) ${body(depth)})`;
    }
  }

  const catchParameter = () => one([(n) => n, (n) => n, (n) => n, (n) => `[${n}]`])(name());
  const tryStatement = (depth) => `try { throw [${number()}]; } catch (${catchParameter()}) ${block(depth)}`;

  function loop(depth) {
    const kind = one(['var', 'var', 'let']);
    const once = `once${number()}`;
    return below(2) === 0
      ? `for (${kind} ${name()} of [${number()}]) ${block(depth)}`
      : `for (${kind} ${name()} = ${number()}, ${once} = 0; ${once} < 1; ${once} += 1) ${block(depth)}`;
  }

  function ifStatement(depth) {
    const other = below(3) === 0 ? ` else ${functionDeclaration(depth)}` : '';
    return `if (${below(4) === 0 ? 0 : 1}) ${functionDeclaration(depth)}${other}`;
  }

  const switchStatement = (depth) => `switch (see(() => ${name()}), 1) { case 1: ${list(depth + 1, 3)} }`;
  const label = () => `label${number()}:`;

  function classDeclaration(depth) {
    return `class ${name()} { ${tag()} static m(${parameters(depth)}) ${body(depth)} ${below(3) === 0 ? `static ${block(depth)}` : ''} }`;
  }

  function withStatement(depth) {
    return `with ({ ${name()}: ${number()} }) ${block(depth)}`;
  }

  const evaluation = () => `try { eval('${one(['see(() => N)', 'var N = 7', 'N = 8'])}'.replace('N', '${name()}')); } catch { }`;

  function nested(depth) {
    switch (below(14)) {
      case 0:
      case 1:
        return block(depth);
      case 2:
      case 3:
        return functionDeclaration(depth);
      case 4:
      case 5:
        return `call(() => ${functionExpression(depth)});`;
      case 6:
      case 7:
        return tryStatement(depth);
      case 8:
        return loop(depth);
      case 9:
        return ifStatement(depth);
      case 10:
        return switchStatement(depth);
      case 11:
        return below(4) === 0 ? withStatement(depth) : block(depth);
      case 12:
        return below(3) === 0 ? classDeclaration(depth) : `{ ${functionDeclaration(depth)} ${use()} }`;
      default:
        return `${label()} ${below(2) === 0 ? functionDeclaration(depth) : block(depth)}`;
    }
  }

  function statement(depth) {
    if (below(3) === 0) return use();
    if (depth < DEEPEST && below(2) === 0) return nested(depth);
    switch (below(9)) {
      case 0:
      case 1:
        return `var ${name()} = ${initializer(depth)};`;
      case 2:
        return `var ${name()};`;
      case 3:
        return `let ${name()} = ${initializer(depth)};`;
      case 4:
        return `{ function ${name()}() { ${tag()} } }`;
      case 5:
        return below(12) === 0 ? evaluation() : use();
      default:
        return use();
    }
  }

  return () => `${list(0, 6)}${names.map((n) => `see(() => ${n});`).join(' ')}`;
}

const program = (seed) => writer(seeded(seed))();

module.exports = { program };
