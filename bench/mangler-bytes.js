#!/usr/bin/env node
'use strict';
// mangler-bytes.js FILE MANGLED: the bytes of a file and of the same mangled; and by one printer, terser's without its own mangle, of both
// and of the file with terser's mangle, where terser is installed.

const fs = require('fs');
const { load } = require('../tools/source-to-tree/load.js');

const PRINTED = { ecma: 2020, compress: false, format: { comments: 'all', beautify: true } };

function printer() {
  try {
    return load('terser');
  } catch {
    return null;
  }
}

async function main([file, mangled]) {
  const [before, after] = [file, mangled].map((name) => fs.readFileSync(name, 'utf8'));
  const sizes = `${Buffer.byteLength(before)} bytes, mangled ${Buffer.byteLength(after)}`;
  const terser = printer();
  if (terser === null) {
    console.log(sizes);
    return;
  }
  const size = async (text, mangle) => Buffer.byteLength((await terser.minify(text, { ...PRINTED, mangle })).code);
  const [plain, ours, theirs] = [await size(before, false), await size(after, false), await size(before, { toplevel: true })];
  console.log(`${sizes}; printed ${plain}, mangled ${ours}, by terser ${theirs}: ${(ours / theirs).toFixed(3)} of it`);
}

main(process.argv.slice(2)).catch((error) => {
  console.error(error.message);
  process.exitCode = 1;
});
