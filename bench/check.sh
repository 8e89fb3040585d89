#!/bin/bash
# What `bolgwyr check` takes over packages, beside ESLint with rules of the same kinds, acorn's parsing alone, the converter alone, and the
# programs alone on trees that are there. Rounds of all are interleaved, and the least processor time and the least clock of each count. It
# prints a table, which docs/speed.md takes.
# The words are folders; with none it takes those of the list below that are there. ROUNDS is how many rounds (3).
set -eu
cd "$(dirname "$0")/.."
folders='
/usr/share/nodejs/eslint
/usr/lib/node_modules/npm
/usr/share/nodejs/npm
/usr/share/nodejs/lodash-es
/usr/share/nodejs/typescript/lib
'
# shellcheck disable=SC2086
[ $# -gt 0 ] || set -- $(ls -d $folders 2>/dev/null || true)
rounds="${ROUNDS:-3}"
scratch="$(mktemp -d)"
trap 'rm -rf "$scratch"' EXIT
program="$(tools/programs/ready.sh tools_main)"
if [ "$program" = none ]; then
    echo "check.sh: tools_main isn't built: bin/name_lint builds it" >&2
    exit 1
fi
program="${program#* }"

# Certificates that Node would read at each start.
unset NODE_EXTRA_CA_CERTS
# As bin/bolgwyr calls Node.
flags="$(sed -n 's/^exec node \(.*\) "$here.*/\1/p' bin/bolgwyr)"
# shellcheck disable=SC2086 # each flag is a word of its own
part() { node $flags bench/check-parts.js "$@"; }
parsing() { part parse <"$scratch/files"; }
conversion() { part convert <"$scratch/files"; }
eslint() { node --max-old-space-size=8192 --max-semi-space-size=32 bench/check-parts.js eslint "$scratch"; }
programs() { for tree in "$scratch"/trees/*; do "$program" file_check <"$tree"; done; }
check() { xargs -d '\n' -n 100000 -s 1900000 bin/bolgwyr check --no-cache --format unix <"$scratch/files"; }
parts='check eslint parsing conversion programs'

# timed NAME: runs it, and notes its processor time and its clock in seconds.
timed() {
    TIMEFORMAT='%U %S %R'
    { time "$1" >/dev/null 2>&1 || true; } 2>"$scratch/time"
    awk '{ print $1 + $2, $3 }' "$scratch/time" >>"$scratch/$1"
}

# least NAME COLUMN: the least of what was noted.
least() { sort -n -k "$2,$2" "$scratch/$1" | awk -v column="$2" 'NR == 1 { print $column }'; }

echo '| package | files, MB | `check` | ESLint | parsing alone | converter | programs | of ESLint, processor and clock | of converter and programs |'
echo '|---|---|---|---|---|---|---|---|---|'
for folder in "$@"; do
    rm -rf "${scratch:?}"/*
    mkdir "$scratch/trees"
    part list "$folder" "$scratch"
    part trees "$scratch/trees" <"$scratch/files"
    for _ in $(seq "$rounds"); do
        for name in $parts; do timed "$name"; done
    done
    row="| $folder | $(wc -l <"$scratch/files"), $(xargs -d '\n' cat <"$scratch/files" | wc -c | awk '{ printf "%.1f", $1 / 1e6 }')"
    for name in $parts; do row="$row | $(least "$name" 1); $(least "$name" 2)"; done
    of_eslint="$(echo "$(least check 1) $(least eslint 1) $(least check 2) $(least eslint 2)" | awk '{ printf "%.2f, %.2f", $1 / $2, $3 / $4 }')"
    of_parts="$(echo "$(least check 1) $(least conversion 1) $(least programs 1)" | awk '{ printf "%.2f", $1 / ($2 + $3) }')"
    echo "$row | $of_eslint | $of_parts |"
done
