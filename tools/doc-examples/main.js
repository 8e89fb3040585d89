#!/usr/bin/env node
'use strict';
// Runs the commands that documents show, and compares what they print with what stands there.
// usage: main.js [--write] [DOCUMENT.md ..]     (without names: README.md and all of docs/)
//
// A block that begins with ```console holds lines `$ COMMAND`, each with what it prints behind it; a line `..` stands for any
// lines. The commands of a document run one after the other in one copy of samples/source. With --write what is printed goes
// into the document, but for commands whose output has a line `..`.

const fs = require('fs');
const os = require('os');
const path = require('path');
const { spawnSync } = require('child_process');

const ROOT = path.join(__dirname, '..', '..');
const BLOCK = /^```console\n([^]*?)^```$/gm;
const REST = '..';

// The commands of a block: each `$ ` line with the lines behind it.
function commandsOf(block) {
  const commands = [];
  for (const line of block.split('\n').slice(0, -1)) {
    if (line.startsWith('$ ')) {
      commands.push({ line: line.slice(2), shown: [] });
    } else if (commands.length > 0) {
      commands[commands.length - 1].shown.push(line);
    }
  }
  return commands;
}

function environment(folder) {
  return {
    ...process.env,
    PATH: `${path.join(ROOT, 'bin')}${path.delimiter}${process.env.PATH}`,
    NO_COLOR: '1',
    XDG_CACHE_HOME: path.join(folder, '.cache'),
    COLUMNS: '120',
  };
}

// What a command prints on both ends, as a terminal shows it, without empty lines at its end.
function printed(line, folder) {
  const run = spawnSync('sh', ['-c', `exec 2>&1\n${line}`], { cwd: folder, encoding: 'utf8', env: environment(folder) });
  const lines = run.stdout.split('\n');
  while (lines.length > 0 && lines[lines.length - 1] === '') {
    lines.pop();
  }
  return lines;
}

// Whether the lines are those that are shown, where `..` stands for any.
function fits(shown, lines) {
  const gap = shown.indexOf(REST);
  if (gap === -1) {
    return shown.length === lines.length && shown.every((line, place) => line === lines[place]);
  }
  const before = shown.slice(0, gap);
  const after = shown.slice(gap + 1);
  return lines.length >= before.length + after.length
    && before.every((line, place) => line === lines[place])
    && after.every((line, place) => line === lines[lines.length - after.length + place]);
}

function tell(document, command, lines) {
  console.log(`${document}: \`${command.line}\` prints something else:`);
  for (const line of lines) {
    console.log(`  | ${line}`);
  }
}

// Runs a document's commands; gives its text with what they print, and how many fit and how many don't.
function runDocument(document) {
  const text = fs.readFileSync(document, 'utf8');
  const folder = fs.mkdtempSync(path.join(os.tmpdir(), 'documents-'));
  const counts = { passed: 0, failed: 0 };
  const runBlock = (whole, block) => {
    const made = commandsOf(block).flatMap((command) => {
      const lines = printed(command.line, folder);
      const isShown = fits(command.shown, lines);
      counts[isShown ? 'passed' : 'failed'] += 1;
      if (!isShown) {
        tell(path.relative(ROOT, document), command, lines);
      }
      return [`$ ${command.line}`, ...(command.shown.includes(REST) ? command.shown : lines)];
    });
    return `\`\`\`console\n${made.join('\n')}\n\`\`\``;
  };
  try {
    fs.cpSync(path.join(ROOT, 'samples', 'source'), folder, { recursive: true });
    return { text: text.replace(BLOCK, runBlock), ...counts };
  } finally {
    fs.rmSync(folder, { recursive: true, force: true });
  }
}

function documentsOf(names) {
  if (names.length > 0) {
    return names.map((name) => path.resolve(name));
  }
  const docs = path.join(ROOT, 'docs');
  const below = fs.readdirSync(docs).filter((name) => name.endsWith('.md')).sort();
  return [path.join(ROOT, 'README.md'), ...below.map((name) => path.join(docs, name))];
}

function main(words) {
  const writes = words.includes('--write');
  const sum = { passed: 0, failed: 0 };
  for (const document of documentsOf(words.filter((word) => word !== '--write'))) {
    const { text, passed, failed } = runDocument(document);
    sum.passed += passed;
    sum.failed += failed;
    if (writes) {
      fs.writeFileSync(document, text);
    }
  }
  console.log(`documents: ${sum.passed} commands print what is shown, ${sum.failed} don't`);
  return sum.failed === 0 || writes ? 0 : 1;
}

process.exitCode = main(process.argv.slice(2));
