'use strict';
// Writes the control file of Debian's package: what it depends on is what package.json names.
// usage: control.js ARCHITECTURE KILOBYTES

const { dependencies, description, version } = require('../../package.json');

// Debian has this module in the package of another.
const INSIDE = { 'acorn-jsx': 'acorn' };

// The lowest version that a range of package.json takes.
const lowest = (range) => /\d+(\.\d+)*/.exec(range)[0];

function packageOf([name, range]) {
  return INSIDE[name] === undefined ? [`node-${name} (>= ${lowest(range)})`] : [];
}

function control(architecture, kilobytes) {
  const depends = ['libc6', 'nodejs (>= 18)', ...Object.entries(dependencies).flatMap(packageOf)];
  return `Package: bolgwyr
Version: ${version}
Architecture: ${architecture}
Maintainer: Bolgwyr maintainers <bolgwyr@localhost>
Installed-Size: ${kilobytes}
Depends: ${depends.join(', ')}
Recommends: parallel
Section: javascript
Priority: optional
Description: ${description}
 Checks, renames, links and shows source files of JavaScript and TypeScript.
 bolgwyr --version tells whether the programs inside are proved.
`;
}

process.stdout.write(control(process.argv[2], process.argv[3]));
