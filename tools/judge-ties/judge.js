'use strict';
// Runs generated programs as they are and with fresh names for all symbols whose names aren't tangled: they must tell the same.

const { program } = require('./generate');
const { renamed } = require('./rename');
const { told, toldAgain } = require('./run');
const { Refusal } = require('../source-to-tree/convert');
const { tablesOf } = require('./tables');

// Fresh names for the symbols of names that aren't tangled.
function freshNames(tangled) {
  return ({ id, name }) => (tangled.has(name) ? null : `q${id}_`);
}

// The tables of a program, or null where the converter refuses it.
function tablesOrNothing(source) {
  try {
    return tablesOf(source);
  } catch (error) {
    if (error instanceof Refusal) return null;
    throw error;
  }
}

// What becomes of one program: `refused` by V8 or by the converter, `same`, or `different` with both texts.
function judged(seed, tangledOf) {
  const source = program(seed);
  const before = told(source);
  if (before === null) return { outcome: 'refused' };
  const tables = tablesOrNothing(source);
  if (tables === null) return { outcome: 'refused' };
  const tangled = tangledOf(tables);
  const names = new Set(tables.report.symbols.map(({ name }) => name));
  const counts = { names: names.size, tangled: [...names].filter((name) => tangled.has(name)).length };
  const other = renamed(source, tables, freshNames(tangled));
  const after = toldAgain(other);
  if (after === before) return { outcome: 'same', ...counts };
  return { outcome: 'different', ...counts, source, other, before, after };
}

// Judges programs, of the seeds from `first` on, until so many have run.
function judgeMany(many, first, tangledOf, tell) {
  const sum = { programs: 0, refused: 0, names: 0, tangled: 0, different: 0 };
  for (let seed = first; sum.programs < many; seed += 1) {
    const result = judged(seed, tangledOf);
    if (result.outcome === 'refused') {
      sum.refused += 1;
      continue;
    }
    sum.programs += 1;
    sum.names += result.names;
    sum.tangled += result.tangled;
    if (result.outcome === 'different') {
      sum.different += 1;
      tell(seed, result);
    }
  }
  return sum;
}

module.exports = { judgeMany };
