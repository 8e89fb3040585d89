#!/bin/sh
# Whether the time of a renaming grows as its tree does. For each family of trees it times the renaming of the first symbol
# of one tree and of one four times as large, and prints the times and their ratio. Wanted: at most 6. With FLOOR, a program
# that reads a tree, analyses it twice and writes it, it times that too, and prints how many times as long the renaming of the
# larger tree takes. Wanted: at most 1.3. The words are families, of those at the end of this file; with none it takes all.
# RENAMER names the program, SIZE the smaller number of symbols. It needs awk.
set -eu
cd "$(dirname "$0")/.."
renamer="${RENAMER:-bin/renamer}"
floor="${FLOOR:-}"
size="${SIZE:-16000}"
scratch="$(mktemp -d)"
trap 'rm -rf "$scratch"' EXIT

# The tree of a script. `body` writes its rows, of `count` symbols.
script() {
    awk -v count="$2" '
    function row(depth, role, kind, text) {
        printf ",[%d,\"%s\",\"%s\",0,0,\"%s\",[]]", depth, role, kind, text
    }
    function variable(depth, name, value) {
        row(depth, "body", "VariableDeclaration", "let")
        row(depth + 1, "declarators", "VariableDeclarator", "")
        row(depth + 2, "id", "BindingIdentifier", name)
        if (value != "") row(depth + 2, "init", "IdentifierReference", value)
    }
    function chain(depth) {
        variable(depth, "a0", "")
        for (i = 1; i < count; i++) variable(depth, "a" i, "a" (i - 1))
    }
    '"$1"'
    BEGIN {
        printf "{\"comments\":[],\"format\":1,\"goal\":\"script\",\"lang\":\"js\",\"source\":\"\""
        printf ",\"rows\":[[0,\"root\",\"Program\",0,0,\"\",[]]"
        body()
        printf "]}"
    }'
}

# let a0; let a1 = a0; let a2 = a1; ..
chain() {
    script 'function body() { chain(1) }' "$1"
}

# (function () { let a0; let a1 = a0; let a2 = a1; .. });
chain_in_a_function() {
    script 'function body() {
        row(1, "body", "ExpressionStatement", "")
        row(2, "expression", "Function", "expression")
        row(3, "params", "FormalParameters", "formal")
        row(3, "body", "FunctionBody", "")
        chain(4)
    }' "$1"
}

# let a0; let a1 = a0; let a2 = a0; ..
uses_of_one() {
    script 'function body() {
        variable(1, "a0", "")
        for (i = 1; i < count; i++) variable(1, "a" i, "a0")
    }' "$1"
}

# The least of three times of a program over the tree, in milliseconds.
time_over_tree() {
    : >"$scratch/times"
    for _ in 1 2 3; do
        start="$(date +%s%N)"
        "$@" <"$scratch/tree" >"$scratch/out"
        end="$(date +%s%N)"
        echo $(((end - start) / 1000000)) >>"$scratch/times"
    done
    sort -n "$scratch/times" | head -n 1
}

[ $# -gt 0 ] || set -- chain chain_in_a_function uses_of_one
for family; do
    "$family" "$size" >"$scratch/tree"
    small="$(time_over_tree "$renamer" 0 renamed)"
    "$family" $((size * 4)) >"$scratch/tree"
    large="$(time_over_tree "$renamer" 0 renamed)"
    awk -v family="$family" -v size="$size" -v small="$small" -v large="$large" 'BEGIN {
        printf "%s: %d %d ms, %d %d ms, ratio %.1f (wanted at most 6)\n", family, size, small, 4 * size, large, large / small
    }'
    [ -n "$floor" ] || continue
    least="$(time_over_tree "$floor")"
    awk -v family="$family" -v large="$large" -v least="$least" 'BEGIN {
        printf "%s: without renaming %d ms, ratio %.2f (wanted at most 1.3)\n", family, least, large / least
    }'
done
