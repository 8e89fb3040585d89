#!/bin/bash
# Whether the time of a report grows as its tree does, where the tree is made to be slow. For each family of trees it writes
# one tree, one four times as large and one sixteen times as large, and prints the processor time of their reports and how
# many times as long each takes as the one before. Wanted: at most 6, where the largest takes more than a second. Where the
# size is a depth, the tree has a fixed number of nests. The words are families, of the table below; with none it takes all.
# REPORT names the program, LIMIT the seconds of the processor that a report may take (60), TIMES of how many times the least
# is taken (3). It needs awk.
set -eu
cd "$(dirname "$0")/.."
report="${REPORT:-bin/report}"
limit="${LIMIT:-60}"
times="${TIMES:-3}"
scratch="$(mktemp -d)"
trap 'rm -rf "$scratch"' EXIT
TIMEFORMAT='%U %S'

# The families of bench/hostile.awk, each with the size of its smallest tree.
table='
parameters_plain 25000
parameters_with_defaults 16000
parameters_in_patterns 10000
parameters_in_one_pattern 16000
parameters_with_functions 7000
parameters_of_one_name 25000
namespace_declarations 16000
namespace_exports 8000
namespace_exported_declarations 12000
namespace_chain 8000
namespace_ring 8000
namespace_nests 60
namespaces_of_one_name 16000
redeclarations 16000
conflicts 16000
functions_of_one_name 12000
functions_of_one_block 12000
functions_of_many_blocks 10000
functions_of_blocks_of_their_own 10000
functions_below_namesakes 7000
functions_behind_variables 7000
vars_over_variables 8000
vars_over_variables_backwards 8000
catch_names 50000
catch_names_with_functions 7000
catch_clauses 6000
free_names 25000
uses_of_one_free_name 25000
uses_of_one_symbol 25000
headers_in_headers 20
references_in_a_header 50000
references_before_headers 12000
labels 16000
labels_in_labels 60
long_labels_in_labels 60
class_elements 10000
private_names 10000
escapes 16000
comments 200000
spans 25000
enum_members 25000
import_specifiers 16000
export_specifiers 10000
one_name_in_many_scopes 8000
deep_blocks 60
deep_vars 60
deep_block_functions 60
directives 25000
switch_cases 10000
type_parameters 25000
elements_of_a_pattern 50000
'

# The processor time of one report of the tree, in milliseconds, or nothing where it ends with a status above 1.
time_once() {
    local status=0
    { time (ulimit -t "$limit"; "$report" <"$scratch/tree" >/dev/null 2>&1) || status=$?; } 2>"$scratch/time"
    [ "$status" -gt 1 ] || awk '{ printf "%d\n", ($1 + $2) * 1000 }' "$scratch/time"
}

# The least of some times of the report of the tree.
time_of() {
    local least="" again round
    for ((round = 0; round < times; round++)); do
        again="$(time_once)"
        [ -n "$again" ] || return 0
        [ -n "$least" ] && [ "$least" -le "$again" ] || least="$again"
    done
    echo "$least"
}

# The line on a family.
measure() {
    local size="$2" before="" now line="$1:"
    for _ in 1 2 3; do
        awk -v family="$1" -v size="$size" -f bench/hostile.awk >"$scratch/tree"
        now="$(time_of)"
        if [ -z "$now" ]; then
            echo "$line $size: no report within $limit s"
            return
        fi
        line="$line $size $now ms"
        [ -z "$before" ] || line="$line ($(awk -v now="$now" -v before="$before" 'BEGIN { printf "%.1f", now / before }'))"
        before="$now"
        size=$((size * 4))
    done
    echo "$line"
}

[ -n "${REPORT:-}" ] || "$report" </dev/null >/dev/null 2>&1 || true
while read -r family size; do
    [ -n "$family" ] || continue
    if [ $# -eq 0 ] || [[ " $* " == *" $family "* ]]; then
        measure "$family" "$size"
    fi
done <<<"$table"
