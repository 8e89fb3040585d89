#!/usr/bin/env node
'use strict';
// run.js FOLDER PACKAGE: what the package of the folder answers to its calls, a line each. Of functions it is told that they are some, of
// objects not whose they are, and of errors their kind: names of functions, and the engine's messages, change with names of variables.

const path = require('path');
const util = require('util');
const { CALLS } = require('./calls');

const [, , folder, name] = process.argv;

const FUNCTION = /\[(?:Function|class|AsyncFunction)[^\]]*\]/g;
const CLASS_NAME = /(^|[[\s,:(])[A-Za-z_$][\w$]* \{/g;

// A value in one line.
function shown(value) {
  if (value instanceof Error) {
    return `an error, ${value.constructor.name}`;
  }
  const text = typeof value === 'string' ? value : util.inspect(value, { depth: 6, maxArrayLength: null, maxStringLength: null, breakLength: Infinity });
  return text.replace(FUNCTION, '[Function]').replace(CLASS_NAME, '$1{').replace(/\n/g, '\\n');
}

// What a call gives, and at once: a value that it hands out may change later.
function ask(label, call) {
  let told;
  try {
    told = shown(call());
  } catch (error) {
    told = `throws ${shown(error)}`;
  }
  process.stdout.write(`${label}: ${told}\n`);
}

CALLS[name](require(path.join(folder, 'node_modules', name)), ask);
