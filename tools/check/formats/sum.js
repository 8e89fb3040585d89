'use strict';
// How many findings there are.

// With commas between thousands. The engine's own way loads tables of all languages first.
const grouped = (number) => String(number).replace(/\B(?=(?:\d{3})+$)/g, ',');

const counted = (number, what) => `${grouped(number)} ${what}${number === 1 ? '' : 's'}`;

function sumOf(results) {
  const findings = results.flatMap((result) => result.findings);
  const failed = results.filter((result) => result.failure !== undefined).length;
  const errors = findings.filter(({ severity }) => severity === 'error').length;
  return {
    files: results.length - failed,
    failed,
    found: results.filter((result) => result.findings.length > 0).length,
    errors,
    warnings: findings.length - errors,
  };
}

// The sum on one line.
function sumLine({ files, failed, found, errors, warnings }) {
  const unread = failed === 0 ? '' : `, ${counted(failed, 'file')} not read`;
  if (errors + warnings === 0) {
    return `${counted(files, 'file')}, nothing found${unread}`;
  }
  const kinds = warnings === 0 ? counted(errors, 'error') : `${counted(errors, 'error')}, ${counted(warnings, 'warning')}`;
  return `${kinds} in ${grouped(found)} of ${counted(files, 'file')}${unread}`;
}

module.exports = { sumLine, sumOf };
