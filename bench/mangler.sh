#!/bin/bash
# Whether the time of the mangler grows as its tree does, and how short its names get. For each family of trees it times mangling one
# tree and one four times as large, by processor time, least of three, and prints both and their ratio. Wanted: at most 6. Beside it
# stands a renaming in the larger tree, which reads it, analyses it twice and writes it, too: the mangler takes at most 1.8 times as
# long as these alone, and so at most 1.5 times as long as the renaming. With `bytes` it mangles files of packages with --toplevel where
# they are modules, and says how many bytes they have, and how many by terser's mangle, where terser is installed.
# The words are families, of those at the end of this file, or `bytes`; with none it takes all.
# TOOLS names the program of all tools, SIZE the smaller number of symbols.
set -eu
cd "$(dirname "$0")/.."
size="${SIZE:-16000}"
scratch="$(mktemp -d)"
trap 'rm -rf "$scratch"' EXIT

mangle() {
    if [ -n "${TOOLS:-}" ]; then "$TOOLS" mangler --toplevel; else bin/mangler --toplevel; fi
}

rename_first() {
    if [ -n "${TOOLS:-}" ]; then "$TOOLS" renamer 0 renamed; else bin/renamer 0 renamed; fi
}

# The tree of a script. `body` writes its rows, of `count` symbols with names of some length.
script() {
    awk -v count="$2" '
    function row(depth, role, kind, text) {
        printf ",[%d,\"%s\",\"%s\",0,0,\"%s\",[]]", depth, role, kind, text
    }
    function variable(depth, name, value) {
        row(depth, "body", "VariableDeclaration", "let")
        row(depth + 1, "declarators", "VariableDeclarator", "")
        row(depth + 2, "id", "BindingIdentifier", name)
        if (value != "") row(depth + 2, "init", "IdentifierReference", value)
    }
    function use(depth, name) {
        row(depth, "body", "ExpressionStatement", "")
        row(depth + 1, "expression", "IdentifierReference", name)
    }
    '"$1"'
    BEGIN {
        printf "{\"comments\":[],\"format\":1,\"goal\":\"module\",\"lang\":\"js\",\"source\":\"\""
        printf ",\"rows\":[[0,\"root\",\"Program\",0,0,\"\",[]]"
        body()
        printf "]}"
    }'
}

# let name0; let name1 = name0; let name2 = name1; ..
one_scope() {
    script 'function body() {
        variable(1, "name0", "")
        for (i = 1; i < count; i++) variable(1, "name" i, "name" (i - 1))
    }' "$1"
}

# 200 blocks, each in the one before, with as many of the variables each, which use those around
chain_of_scopes() {
    script 'function body() {
        each = int(count / 200)
        for (depth = 1; depth <= 200; depth++) {
            row(depth, "body", "BlockStatement", "")
            for (i = 0; i < each; i++) variable(depth + 1, "name" depth "_" i, depth > 1 ? "name" (depth - 1) "_" i : "")
        }
    }' "$1"
}

# let name; { let name0; name; } { let name1; name; } ..
used_in_each_scope() {
    script 'function body() {
        variable(1, "name", "")
        for (i = 0; i < count; i++) {
            row(1, "body", "BlockStatement", "")
            variable(2, "name" i, "")
            use(2, "name")
        }
    }' "$1"
}

# The least processor time of three runs over the tree, in seconds.
time_over_tree() {
    for _ in 1 2 3; do
        TIMEFORMAT='%U %S'
        { time "$@" <"$scratch/tree" >"$scratch/out" 2>"$scratch/errs"; } 2>&1 | awk '{ print $1 + $2 }'
    done | sort -n | head -n 1
}

# The family's times, with both ratios.
try_family() {
    "$1" "$size" >"$scratch/tree"
    small="$(time_over_tree mangle)"
    "$1" $((size * 4)) >"$scratch/tree"
    large="$(time_over_tree mangle)"
    renaming="$(time_over_tree rename_first)"
    awk -v family="$1" -v size="$size" -v small="$small" -v large="$large" -v renaming="$renaming" 'BEGIN {
        printf "%s: %d %.2f s, %d %.2f s, ratio %.1f (wanted at most 6); against a renaming %.2f (wanted at most 1.5)\n",
            family, size, small, 4 * size, large, large / small, large / renaming
    }'
}

# Files of packages, where they are installed.
FILES="acorn/dist/acorn.js underscore/underscore.js lodash/lodash.js eslint/lib/linter/linter.js commander/lib/command.js
magic-string/dist/magic-string.cjs.js source-map/lib/source-map-consumer.js globby/index.js enhanced-resolve/lib/Resolver.js
semver/classes/range.js esquery/parser.js uri-js/dist/es5/uri.all.js"

try_bytes() {
    for file in $FILES; do
        whole="/usr/share/nodejs/$file"
        [ -f "$whole" ] || continue
        if bin/bolgwyr mangle --toplevel "$whole" >"$scratch/mangled.js" 2>"$scratch/errs"; then
            echo "$file: $(node bench/mangler-bytes.js "$whole" "$scratch/mangled.js")"
        else
            echo "$file: $(head -n 1 "$scratch/errs")"
        fi
    done
}

[ $# -gt 0 ] || set -- one_scope chain_of_scopes used_in_each_scope bytes
for family; do
    if [ "$family" = bytes ]; then try_bytes; else try_family "$family"; fi
done
