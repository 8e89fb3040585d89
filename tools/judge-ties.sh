#!/bin/sh
# judge-ties.sh [N] [SEED]: whether N generated programs (20,000 without one) tell the same with fresh names for all symbols whose
# names aren't tangled.
# judge-ties.sh --typescript [N] [SEED]: whether TypeScript's checker ties the names of N generated modules (2,000 without one) as the
# tables do, but for tangled ones.
# By the programs of bin/; BOLGWYR_REPORT and BOLGWYR_TOOLS name built ones.
judge=main.js
if [ "${1:-}" = --typescript ]; then
    judge=typescript/main.js
    shift
fi
exec node --no-warnings "$(dirname "$0")/judge-ties/$judge" "$@"
