'use strict';
// Texts that change: the tree that is made anew only where it changed is that of the whole, byte for byte, or both are refused alike.

const { ChangingTree } = require('../source-to-tree/pieces/tree');
const { placesOf } = require('../source-to-tree/row-places');
const { treeOf, Refusal } = require('../source-to-tree/convert');
const { EDITS, filler, textsToChange } = require('./changing-texts');

const ROUNDS = 150; // of each text

// Numbers that are the same in each run.
function numbers(seed) {
  let state = seed;
  return (below) => {
    state = (Math.imul(state, 1103515245) + 12345) >>> 0;
    return (state >>> 8) % below;
  };
}

// A line doubled, left out, moved, or with something in or before it.
const CHANGES = [
  (lines, at) => lines.splice(at, 0, lines[at]),
  (lines, at) => lines.splice(at, 1),
  (lines, at, pick) => lines.splice(pick(lines.length), 0, ...lines.splice(at, pick(30))),
  (lines, at, pick, pieces) => lines.splice(at, 0, pieces[pick(pieces.length)]),
  (lines, at) => { lines[at] = lines[at].replace(/[a-z]+/, (word) => `${word}x`); },
  (lines, at) => { lines[at] = lines[at].replace(/x\b/, ''); },
  (lines, at, pick, pieces) => {
    const place = pick(lines[at].length + 1);
    lines[at] = lines[at].slice(0, place) + pieces[pick(pieces.length)] + lines[at].slice(place);
  },
];

function changed(text, pick, pieces) {
  const lines = text.split('\n');
  CHANGES[pick(CHANGES.length)](lines, pick(lines.length), pick, pieces);
  return lines.join('\n');
}

function outcomeOf(make) {
  try {
    return make();
  } catch (error) {
    if (!(error instanceof Refusal)) throw error;
    return { refused: error.lineFor('') };
  }
}

// Whether both ways have the same of a text; where the places of rows are told, they are those.
function isSame(changing, text, filename) {
  const whole = outcomeOf(() => treeOf(text, { filename }));
  const made = outcomeOf(() => changing.treeOf(text, { filename }));
  if (whole.refused !== undefined) return { isRight: made.refused === whole.refused, isTree: false };
  const isRight = made.json !== undefined && made.json.equals(whole.json)
    && (made.places === undefined || Buffer.from(made.places).equals(Buffer.from(placesOf(made.json))));
  return { isRight, isTree: true, isPieced: made.places !== undefined };
}

// Changes a text at random. What can't be read is taken back, at once or behind one more change.
function changeAtRandom(tally, [name, first, filename, pieces], seed) {
  const pick = numbers(seed);
  const changing = new ChangingTree();
  let text = first;
  let sound = text; // the last text that could be read
  let [trees, pieced] = [0, 0];
  for (let round = 0; round < ROUNDS; round += 1) {
    const next = changed(text, pick, pieces);
    const { isRight, isTree, isPieced } = isSame(changing, next, filename);
    if (!isRight) {
      tally.check(`${name} after change ${round}`, false, `another tree than of the whole: ${JSON.stringify(next)}`);
      return;
    }
    trees += isTree ? 1 : 0;
    pieced += isPieced ? 1 : 0;
    const isKept = isTree || (text === sound && pick(4) === 0);
    sound = isTree ? next : sound;
    text = isKept ? next : sound;
  }
  tally.check(name, trees > ROUNDS / 10 && pieced > trees / 2, `${trees} trees, ${pieced} of them in pieces`);
}

// A change within one of many pieces has a few of them parsed again.
function checkFew(tally, filename) {
  const changing = new ChangingTree();
  const text = Array.from({ length: 100 }, (_, at) => filler(`f${at}`)).join('');
  const counts = ['f50', 'f50x', 'f5'].map((name) => {
    changing.treeOf(text.replace('f50(', `${name}(`), { filename });
    return changing.known.anew;
  });
  tally.check(`a change within one of many pieces of ${filename}`, counts[0] > 100 && counts[1] < 5 && counts[2] < 5, `${counts} pieces were parsed`);
}

function checkChanging(tally) {
  checkFew(tally, 'a.js');
  checkFew(tally, 'a.ts');
  for (const [what, filename, texts] of EDITS) {
    const changing = new ChangingTree();
    texts.forEach((text, at) => tally.check(`${what} in ${filename}, text ${at}`, isSame(changing, text, filename).isRight));
  }
  textsToChange().forEach((text, at) => changeAtRandom(tally, text, at + 1));
}

module.exports = { CHANGES, changed, checkChanging, isSame, numbers };
