#!/bin/sh
# Tests the converters of source files: that small sources give the trees they must, that both parsers give the same tree of
# a JavaScript file, that the analyser takes each tree, and that references and scopes are those of eslint-scope but for the
# differences that docs/DIFFERENCES.md explains. It prints counts, and its status is 1 where something else differs. Without
# Node or the parsers it says so and tests nothing.
# With --test262 or --typescript it takes the tests of the language or the cases of TypeScript's compiler where they are, by
# each way, and counts what was refused, told of, silent and newer than the parser, what has another tree than by another way, and
# what of it is wrong; one of N files. With --trees the trees alone are made and compared.
# usage: tools/test-sources.sh [--list FILE | FILES..]   (without words: every file of the node packages of Debian)
#        tools/test-sources.sh --test262|--typescript FOLDER [--stride N] [--seconds N] [--shown N] [--ways acorn,estree,typescript,babel] [--trees]
set -u
here="$(cd "$(dirname "$0")" && pwd)"

if ! command -v node >/dev/null 2>&1; then
    echo "test-sources: no node here, nothing tested (tools/setup.sh installs it)"
    exit 0
fi
for module in acorn acorn-jsx typescript eslint-scope; do
    if ! node -e "require('$here/source-to-tree/load').load('$module')" >/dev/null 2>&1; then
        echo "test-sources: no module $module here, nothing tested (tools/setup.sh installs it)"
        exit 0
    fi
done
exec node "$here/test-sources/main.js" "$@"
