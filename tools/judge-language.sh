#!/bin/sh
# judge-language.sh [N] [SEED]: whether N generated programs (2,000 without one) run the same with fresh names for all variables, as
# crates/language_ties has them, and whether the tables agree with it on each name that isn't tangled. By the programs of bin/;
# BOLGWYR_REPORT and BOLGWYR_TOOLS name built ones.
# judge-language.sh --typescript [N] [SEED]: whether TypeScript's checker ties the names of N generated modules (2,000 without one) to what
# they mean by crates/typescript_ties.
judge=language-main.js
if [ "${1:-}" = --typescript ]; then
    judge=typescript/language-main.js
    shift
fi
exec node --no-warnings "$(dirname "$0")/judge-ties/$judge" "$@"
