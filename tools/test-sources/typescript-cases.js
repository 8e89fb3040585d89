'use strict';
// The cases of TypeScript's compiler. A case may have several files, each behind a line with its name. Nothing says which of
// them a parser should take; a tree that the analyser doesn't take is wrong.

const fs = require('fs');
const path = require('path');
const { Corpus, sampleOf } = require('./corpora');

const NAME = /^\/\/\s*@filename:\s*(.*?)\s*$/im;
const SOURCE = /\.(?:[mc]?[jt]s|[jt]sx)$/i;

// The files of a case, each with its name.
function filesOf(file, source) {
  const parts = source.split(/^(?=\/\/\s*@filename:)/im);
  return parts.map((part) => {
    const found = NAME.exec(part);
    if (found === null) return { name: path.basename(file), text: part };
    return { name: path.basename(found[1]), text: part.slice(found.index + found[0].length).replace(/^\r?\n/, '') };
  }).filter(({ name, text }) => SOURCE.test(name) && text.trim() !== '');
}

function checkTypeScript(folder, { ways, shown, trees, ...sample }) {
  const plain = new Corpus({ ways, shown, trees });
  const typed = new Corpus({ ways: ways.filter((way) => way === 'typescript' || way === 'babel'), shown, trees });
  for (const file of sampleOf(folder, (name) => SOURCE.test(name), sample)) {
    for (const { name, text } of filesOf(file, fs.readFileSync(file, 'utf8'))) {
      const corpus = /\.[mc]?js$/i.test(name) ? plain : typed;
      corpus.add(`${file} ${name}`, text, 'any', { filename: name });
    }
  }
  typed.print();
  plain.print();
}

module.exports = { checkTypeScript };
