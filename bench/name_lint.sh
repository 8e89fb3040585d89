#!/bin/sh
# Whether the time of the lint of names grows as its tree does, where much hangs on much. For each family of scripts it times
# the lint of one and of one four times as large, and prints the times and their ratio, wanted: below 6; and the time of the
# large one against that of its report, which reads and analyses it and writes as well, wanted: at most 1.3. The words are
# families, of those at the end of this file; with none it takes all. NAME_LINT and REPORT name the programs, SIZE the smaller
# number of symbols. It needs awk.
set -eu
cd "$(dirname "$0")/.."
lint="${NAME_LINT:-bin/name_lint}"
report="${REPORT:-bin/report}"
size="${SIZE:-16000}"
scratch="$(mktemp -d)"
trap 'rm -rf "$scratch"' EXIT

# The tree of the script that the given lines of awk make for so many symbols.
script() {
    awk -v count="$2" '
    function row(depth, role, kind, text) {
        printf ",[%d,\"%s\",\"%s\",0,0,\"%s\",[]]", depth, role, kind, text
    }
    # function NAME() { .. }, up to its body
    function begin_function(depth, name) {
        row(depth, "body", "Function", "declaration")
        row(depth + 1, "id", "BindingIdentifier", name)
        row(depth + 1, "params", "FormalParameters", "formal")
        row(depth + 1, "body", "FunctionBody", "")
    }
    # NAME();
    function call(depth, name) {
        row(depth, "body", "ExpressionStatement", "")
        row(depth + 1, "expression", "CallExpression", "")
        row(depth + 2, "callee", "IdentifierReference", name)
    }
    # let NAME;
    function declare(depth, name) {
        row(depth, "body", "VariableDeclaration", "let")
        row(depth + 1, "declarators", "VariableDeclarator", "")
        row(depth + 2, "id", "BindingIdentifier", name)
    }
    BEGIN {
        printf "{\"comments\":[],\"format\":1,\"goal\":\"script\",\"lang\":\"js\",\"source\":\"\""
        printf ",\"rows\":[[0,\"root\",\"Program\",0,0,\"\",[]]"
        '"$1"'
        printf "]}"
    }'
}

# function a0() { a1(); } function a1() { a2(); } .. a0();
chain_in_use() {
    script 'for (i = 0; i < count; i++) { begin_function(1, "a" i); if (i + 1 < count) call(3, "a" (i + 1)) } call(1, "a0")' "$1"
}

# function a0() {} function a1() { a0(); } .. without a call: each is unused
chain_unused() {
    script 'for (i = 0; i < count; i++) { begin_function(1, "a" i); if (0 < i) call(3, "a" (i - 1)) }' "$1"
}

# function f() { let a0; a0(); let a1; a1(); .. } f();
one_function_in_use() {
    script 'begin_function(1, "f"); for (i = 0; i < count; i++) { declare(3, "a" i); call(3, "a" i) } call(1, "f")' "$1"
}

# function f() { let a0; a0(); b0(); .. }: each symbol is unused, and each second reference undeclared
one_function_unused() {
    script 'begin_function(1, "f"); for (i = 0; i < count; i++) { declare(3, "a" i); call(3, "a" i); call(3, "b" i) }' "$1"
}

# The least of five times of a program over a tree, in milliseconds.
time_of() {
    : >"$scratch/times"
    for _ in 1 2 3 4 5; do
        start="$(date +%s%N)"
        "$1" <"$2" >/dev/null || true
        end="$(date +%s%N)"
        echo $(((end - start) / 1000000)) >>"$scratch/times"
    done
    sort -n "$scratch/times" | head -n 1
}

[ $# -gt 0 ] || set -- chain_in_use chain_unused one_function_in_use one_function_unused
"$lint" <samples/empty.json >/dev/null
"$report" <samples/empty.json >/dev/null
for family; do
    "$family" "$size" >"$scratch/small"
    "$family" $((size * 4)) >"$scratch/large"
    small="$(time_of "$lint" "$scratch/small")"
    large="$(time_of "$lint" "$scratch/large")"
    reported="$(time_of "$report" "$scratch/large")"
    awk -v family="$family" -v size="$size" -v small="$small" -v large="$large" -v reported="$reported" 'BEGIN {
        printf "%s: %d %d ms, %d %d ms, ratio %.1f (wanted below 6); ", family, size, small, 4 * size, large, large / small
        printf "the report of the large one %d ms, ratio %.2f (wanted at most 1.3)\n", reported, large / reported
    }'
done
