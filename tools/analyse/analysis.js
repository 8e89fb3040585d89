'use strict';
// One text's way: source, tree, report.

const { checkSize, readText } = require('./files.js');
const { Positions } = require('./positions.js');
const { RefusedTree, ask } = require('./program.js');
const { Refusal } = require('./refusal.js');
const { parseReport } = require('./report-parser.js');
const { BOUNDS, convertText, readTree } = require('./tree.js');

// Whether the tree has a row of this number; a refused tree may be anything.
function hasRow(tree, id) {
  try {
    return Array.isArray(tree.value.rows[id]) && typeof tree.value.source === 'string';
  } catch {
    return false;
  }
}

// What is said of a tree that the program refused, with the place of the node to blame.
function explain(refusal, tree) {
  const { cause, kind, id } = refusal;
  if (kind !== 'node' || !hasRow(tree, id)) {
    return new Refusal(`its tree is refused: ${cause}${kind === undefined ? '' : ` at ${kind} ${id}`}`);
  }
  const row = tree.row(id);
  const place = new Positions(tree.value.source).placeOf(row.span.start);
  if (BOUNDS[cause] !== undefined) {
    return new Refusal(BOUNDS[cause], place);
  }
  return new Refusal(`its tree is refused: ${cause} at node ${id} (${row.kind})`, place);
}

// The answer of a tool on a tree, or a Refusal with the place to blame.
function askAbout(tree, tool, words) {
  try {
    return ask(tool, words, tree.json);
  } catch (error) {
    throw error instanceof RefusedTree ? explain(error.refusal, tree) : error;
  }
}

// The tree of a text. Settings: `file`, `tree` where the text is a tree already, `parser`, `goal` and `clock`.
function textTree(text, settings) {
  const tree = settings.tree ? readTree(text) : convertText(text, settings);
  checkSize(tree.json.length, 'its tree');
  return tree;
}

// The tree and the text of its report, with the milliseconds of each part. Settings are those of `textTree`, and `words` for the report
// program.
function analyseText(text, settings) {
  const clock = { parser: 0, conversion: 0 };
  const started = performance.now();
  const tree = textTree(text, { ...settings, clock });
  const converted = performance.now();
  const { stdout, status } = askAbout(tree, 'report', settings.words);
  const times = {
    parser: clock.parser,
    conversion: converted - started - clock.parser,
    analysis: performance.now() - converted,
  };
  return { file: settings.file, tree, words: settings.words, bytes: stdout, diagnosed: status === 1, times };
}

// The same of a file. Its reading counts, too.
function analyseFile(file, settings) {
  const started = performance.now();
  const text = readText(file);
  const reading = performance.now() - started;
  const found = analyseText(text, { file, ...settings });
  return { ...found, times: { reading, ...found.times } };
}

// What is asked of an analysis: the report, and the places of its nodes. `bytes` is the report's text, which was asked with `words`.
function readAnalysis({ file, tree, words, bytes }) {
  const report = parseReport(bytes.toString('utf8'));
  const { source, goal, lang, comments } = tree.value;
  return {
    file,
    goal,
    lang,
    comments,
    words,
    report,
    positions: new Positions(source),
    kindOf: (node) => tree.row(node).kind,
    spanOf: (node) => tree.row(node).span,
  };
}

module.exports = { analyseFile, analyseText, askAbout, explain, readAnalysis, textTree };
