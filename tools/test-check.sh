#!/bin/sh
# Tries bolgwyr check, tables, scopes and lint-names, and the module: each wrong use, each format, each comment and setting, and
# what a second run keeps, and what isn't told. It needs the programs.
here="$(dirname "$0")"
for part in lines places rows excerpts; do node "$here/analyse/test/$part.js" || exit 1; done
for part in untold sums; do node "$here/test-check/$part.js" || exit 1; done
exec node "$here/test-check/main.js" "$@"
