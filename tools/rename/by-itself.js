'use strict';
// What refuses a symbol its new name whatever other names mean: rules on names, names that can't be followed, and what others see.

const { isSpecial, reason, ruleAgainst } = require('./identifier.js');
const { placeKind } = require('./place-kind.js');
const { RenameRefusal } = require('./refusal.js');
const { seenByOthers } = require('./seen.js');

function refuseReserved(analysis, symbol, name) {
  if (!isSpecial(name)) {
    return;
  }
  for (const node of analysis.occurrencesOf(symbol)) {
    const rule = ruleAgainst(name, placeKind(analysis, symbol, node));
    if (rule !== null) {
      throw new RenameRefusal(reason(rule, name), analysis.spanOf(node));
    }
  }
}

// `names` are the tangled ones, by whoever tells them.
function refuseTangled(names, name) {
  const tangled = names.get(name);
  if (tangled !== undefined) {
    throw new RenameRefusal(`\`${name}\` can't be followed: ${tangled.reason}`, tangled.span);
  }
}

function refuseSeen(analysis, symbol) {
  const seen = seenByOthers(analysis, symbol);
  if (seen !== null) {
    throw new RenameRefusal(`the name \`${symbol.name}\` is seen by others: ${seen.message}`, analysis.spanOf(seen.node));
  }
}

module.exports = { refuseReserved, refuseSeen, refuseTangled };
