'use strict';
// The renamer's refusals in words.

const { TEXT } = require('../edits/rows.js');
const { withTables } = require('./analysed.js');
const { differing, fixed } = require('./in-words.js');
const { RenameRefusal } = require('./refusal.js');

// The analysis of the program that the renamer refused: the symbol's nodes have the name, whatever they mean by it.
function withName(analysis, symbol, name) {
  const rows = analysis.rows.slice();
  for (const node of analysis.occurrencesOf(symbol)) {
    const row = rows[node].slice();
    row[TEXT] = name;
    rows[node] = row;
  }
  const tree = { ...analysis.tree, rows };
  return withTables({ ...analysis, tree, json: Buffer.from(JSON.stringify(tree)) });
}

// Which node would mean or declare another symbol, in words.
function differs({ analysis, symbol, name, node }) {
  const after = withName(analysis, symbol, name).symbolOf(node);
  return differing({ analysis, symbol, name, node, after });
}

const REFUSAL = /^rename: (?:(bad name)|(name fixed) at node (\d+)|(differs) at node (\d+))$/;

// What the renamer's line means for a person.
function inWords({ analysis, symbol, name, line }) {
  const found = REFUSAL.exec(line);
  if (found === null) {
    return null;
  }
  const [, bad, isFixed, fixedNode, , differingNode] = found;
  if (bad !== undefined) {
    return new RenameRefusal(`\`${name}\` is a name that no variable gets`, symbol.span);
  }
  const node = Number(isFixed === undefined ? differingNode : fixedNode);
  return isFixed === undefined ? differs({ analysis, symbol, name, node }) : fixed({ analysis, node });
}

module.exports = { inWords };
