'use strict';
// Each listed difference from eslint-scope, with sources that show it, and it alone; and sources that show none.

const SHOWN = {
  'function in a block': [
    '{ function f() {} } f;',
    'switch (a) { case 1: function f() {} } f',
    'try {} catch (f) { { function f() {} } f } f',
    'if (a) { function b() {} } else { function b() {} } b',
  ],
  'var of a catch name': [
    'try {} catch (e) { var e = 1; e } e',
    'try {} catch (e) { { var e; } e }',
    'function f() { try {} catch (e) { e; var e } e }',
  ],
  'class in its own heritage': ['(class A extends A {})', 'let A = class A extends (class B extends A {}) {};'],
  'name of a function expression': ['(function f() { f })', '(function f() { f; var f })', '(function f(f) { f = 1 })'],
  'loop without lexical names': ['for (var i = 0;;) { i }', 'for (a in b);', 'for (a.b of c);'],
  'value of a field': ['class A { a = A; static #b = (c) => c; ["d"] = 1 }'],
};

const NONE = [
  'function f(a = x) { var x; } function g(a = () => y) { var y; y }',
  'var y; (function (a = function (b = y) { var y; }) { var y; })',
  'try {} catch ({ e, f = e }) { let g = e; { e } }',
  'class A extends (class {}) { [A.b] () { A } static { var c; c } } A',
  'var arguments; function f() { arguments; () => arguments } arguments',
  'for (let i = 0;;) { let i; i } for (const a of a) a; for (let [b = c] in b);',
  'a = 1; b++; delete c; typeof d; [e, f.g] = h; ({ i, j: k = l, ...m } = n); x &&= y; x += y; (z) = 1',
  'with (a) { b; var c } c',
  'function f() { let f; eval("1"); f } var f; f',
  '"use strict"; { function f() {} f } f',
  '{ async function f() {} f } { function* g() {} } g',
  '{ let f; { function f() {} f } }',
  'import a, { b as c } from "d"; export { a, c as e }; export default c; export * from "f"; export let g = g; export function h() { h }',
  'switch (a) { case b: let c; c; default: c } l: { break l }',
];

module.exports = { SHOWN, NONE };
