#!/usr/bin/env node
'use strict';
// What Node itself says of small projects: reads {folder, projects: [{name: text}]} from standard input, the first name being the
// entry, and writes a list of {errors: [{file, line, message}], isWhole}. The folder has a package.json that makes its files modules.
//
// Node tells the first error of a project. It is noted, the import that it stands at is taken away, and the project is
// linked again in a folder of its own, as long as there are errors; an error at what is exported ends this.

const fs = require('fs');
const path = require('path');
const { pathToFileURL } = require('url');

let copies = 0;

function writeCopy(folder, files) {
  copies += 1;
  const copy = path.join(folder, `copy${copies}`);
  fs.mkdirSync(copy);
  Object.entries(files).forEach(([name, text]) => fs.writeFileSync(path.join(copy, name), text));
  return copy;
}

// The first error of linking, or null.
async function firstError(folder, files, entry) {
  const copy = writeCopy(folder, files);
  try {
    await import(pathToFileURL(path.join(copy, entry)).href);
    return null;
  } catch (error) {
    const place = /^file:\/\/\S*\/([^/\s]+):(\d+)\n/.exec(error.stack);
    if (place === null) {
      throw error;
    }
    return { file: place[1], line: Number(place[2]), message: error.message };
  } finally {
    fs.rmSync(copy, { recursive: true });
  }
}

// The text without the statement on a line; null where the line is no import, or one whose name is exported.
function without(text, line) {
  const lines = text.split('\n');
  const [local] = /local\d+/.exec(lines[line - 1]) || [''];
  if (!lines[line - 1].startsWith('import ') || text.includes(`export { ${local} `)) {
    return null;
  }
  lines[line - 1] = '';
  return lines.join('\n');
}

async function errorsOf(folder, project) {
  const files = { ...project };
  const [entry] = Object.keys(files);
  const errors = [];
  for (;;) {
    const error = await firstError(folder, files, entry);
    if (error === null) {
      return { errors, isWhole: true };
    }
    errors.push(error);
    const rest = without(files[error.file], error.line);
    if (rest === null) {
      return { errors, isWhole: false };
    }
    files[error.file] = rest;
  }
}

async function main() {
  const { folder, projects } = JSON.parse(fs.readFileSync(0, 'utf8'));
  const answers = [];
  for (const project of projects) {
    answers.push(await errorsOf(folder, project));
  }
  process.stdout.write(JSON.stringify(answers));
}

main();
