'use strict';
// The compiler reads statements of a module that have `await` outside of functions a second time. Where such a statement took
// in what had been statements of their own, it may leave those behind in its list, with what it said of them.

// The statements that go on where the one before ends.
function inOrder(statements) {
  let end = 0;
  return statements.filter((statement) => {
    if (statement.pos < end) return false;
    end = statement.end;
    return true;
  });
}

// True where the compiler marked a node below as one that it had to mend.
function isMended(ts, node) {
  return (node.flags & ts.NodeFlags.ThisNodeHasError) !== 0 || ts.forEachChild(node, (child) => isMended(ts, child) || undefined) === true;
}

// The statements of a file without those left behind, and the faults of these alone.
function wholeStatements(ts, file) {
  const statements = inOrder(file.statements);
  const faults = file.parseDiagnostics;
  if (statements.length === file.statements.length || faults.length === 0) return { statements, faults };
  return { statements, faults: statements.some((statement) => isMended(ts, statement)) ? faults : [] };
}

module.exports = { wholeStatements };
