'use strict';
// Runs a program in a context of its own, and gives what it tells. Functions and classes are told by the number in a comment at
// the head of their bodies, which no renaming touches.

const vm = require('node:vm');

const MOST_CALLS = 60;
const MILLISECONDS = 500;
const SLOW_MACHINE = 20000;
const NUMBER = /\/\*#(\d+)\*\//;

function shown(value) {
  if (typeof value === 'function') return `function ${(NUMBER.exec(Function.prototype.toString.call(value)) || [])[1]}`;
  if (Array.isArray(value)) return `[${value.map(shown)}]`;
  if (typeof value === 'object' && value !== null) return Object.prototype.toString.call(value);
  return String(value);
}

// What the program tells in the time, in order; null where V8 refuses it, or it takes longer.
function toldWithin(source, milliseconds) {
  let script;
  try {
    script = new vm.Script(source);
  } catch (error) {
    return null;
  }
  const out = [];
  let calls = 0;
  const attempt = (work) => {
    try {
      return work();
    } catch (error) {
      out.push(String(error && error.name));
      return undefined;
    }
  };
  const see = (read) => attempt(() => out.push(shown(read())));
  const call = (read) =>
    attempt(() => {
      const value = read();
      calls += 1;
      if (typeof value !== 'function' || calls > MOST_CALLS) return out.push('no call');
      return out.push(`gives ${shown(typeof value.m === 'function' ? value.m(1) : value(1, 2))}`);
    });
  const context = vm.createContext({ see, call });
  try {
    script.runInContext(context, { timeout: milliseconds });
    out.push('ends');
  } catch (error) {
    if (error && error.code === 'ERR_SCRIPT_EXECUTION_TIMEOUT') return null;
    out.push(`throws ${error && error.name}`);
  }
  return out.join('\n');
}

const told = (source) => toldWithin(source, MILLISECONDS);

// The same for a program that ended in time before, with the time that it may take on a machine that is busy.
const toldAgain = (source) => told(source) || toldWithin(source, SLOW_MACHINE) || 'nothing';

module.exports = { told, toldAgain };
